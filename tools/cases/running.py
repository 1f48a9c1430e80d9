"""Running the program on a case: with an input that fails, an output that is full, children and a peer of ours."""
import os
import random
import re
import socket
import subprocess
import sys
import tempfile
import threading
import time
import tty
from contextlib import ExitStack, contextmanager
from dataclasses import dataclass, field
from pathlib import Path

SECONDS = 60
HOST = "127.0.0.1"
# One case of `node` at a time, since several have the same ports.
PORTS = threading.Lock()
# Starts the program with a file size that is limited. A write past that fails, since Python ignores the signal.
LIMITED = (
    "import os, resource, sys; most = int(sys.argv[1]);"
    "resource.setrlimit(resource.RLIMIT_FSIZE, (most, most)); os.execv(sys.argv[2], sys.argv[2:])"
)
CHILD = Path(__file__).resolve().parent / "child"
TURN = re.compile(rb"^(turn [0-9]+) [0-9]+ ", re.M)


def free_port(nodes):
    """A port of this host that is free, with those behind it, one for each of so many nodes."""
    for first in random.sample(range(22000, 32000, nodes), 2000):
        try:
            for port in range(first, first + nodes):
                with socket.socket(socket.AF_INET, socket.SOCK_DGRAM) as tried:
                    tried.bind((HOST, port))
        except OSError:
            continue
        return first
    raise OSError(f"no {nodes} ports in a row are free")


@dataclass
class Came:
    """What came of a run: its exit status, what children and peer had of it, and the text that it wrote."""

    status: int
    told: list = field(default_factory=list)
    text: bytes = b""


def run(program, case):
    """Runs the program on a case."""
    with ExitStack() as stack:
        folder = Path(stack.enter_context(tempfile.TemporaryDirectory()))
        if case.words[:1] == ["node"]:
            stack.enter_context(PORTS)
            return run_node(program, case, folder)
        if case.words[:1] == ["launch"]:
            return run_launch(program, case, folder)
        return ended(program, case, folder)


def ended(program, case, folder, during=lambda child: None, **environment):
    """Runs the program to its end. What it wrote is in a file, which may have a limit of its size."""
    call = [program, *case.words]
    if case.takes:
        call = [sys.executable, "-c", LIMITED, str(case.takes), *call]
    output = folder / "written"
    if case.takes == 0:
        output.symlink_to("/dev/full")
    with open(output, "wb") as written, input_of(case, folder) as read:
        own = {**os.environ, **environment}
        with subprocess.Popen(call, stdin=read, stdout=written, stderr=subprocess.DEVNULL, env=own) as child:
            try:
                during(child)
                status = child.wait(SECONDS)
            finally:
                child.kill()
    return Came(status, [], b"" if case.takes == 0 else output.read_bytes())


@contextmanager
def input_of(case, folder):
    """The standard input of a case: its text as a file, or one half of a terminal whose other half was closed."""
    if not case.failing_read:
        (folder / "job").write_bytes(case.text)
        with open(folder / "job", "rb") as read:
            yield read
        return
    read, other = os.openpty()
    tty.setraw(other)
    os.write(other, case.text if case.failing_read > 1 else b"")
    os.close(other)
    yield read
    os.close(read)


def run_launch(program, case, folder):
    """Runs a launch over the children of a case. What of them was started and finished is told by files."""
    agent, kept = folder / "agent", folder / "kept"
    for rank, child in enumerate(case.children):
        (folder / f"{rank}.text").write_bytes(child.text)
        (folder / f"{rank}.end").write_text("kill -9 $$" if child.status is None else f"exit {child.status}")
    if case.children:
        agent.symlink_to(CHILD)
    if case.no_more_children:
        (folder / f"{len(case.children) - 1}.last").touch()
    came = ended(program, case, folder, GASNET_AGENT=str(agent), GASNET_KEEP=str(kept))
    ranks = range(len(case.children))
    came.told += [started(folder, rank, case.text) for rank in ranks if (folder / f"{rank}.port").exists()]
    came.told += [f"finishes {rank}" for rank in ranks if (kept / f"{rank}.end").exists()]
    return came


def started(folder, rank, job):
    """What is told of a child that was started."""
    given = "what was read" if (folder / f"{rank}.read").read_bytes() == job else "other bytes"
    return f"starts {rank} at port {(folder / f'{rank}.port').read_text().strip()} with {given}"


def run_node(program, case, folder):
    """Runs a node. The times of its turns are told as 0."""
    if case.hosts:
        came = ended(program, case, folder, GASNET_HOSTS=case.hosts)
    elif case.peer is None:
        came = ended(program, case, folder)
    else:
        came = run_beside_peer(program, case, folder)
    came.text = TURN.sub(rb"\1 0 ", came.text)
    return came


def run_beside_peer(program, case, folder):
    """Runs a node, and tells what it sent to the peer."""
    rank, port = map(int, case.words[1:])
    with socket.socket(socket.AF_INET, socket.SOCK_DGRAM) as peer:
        peer.bind((HOST, port + case.peer))
        peer.connect((HOST, port + rank))
        came = ended(program, case, folder, lambda child: send(peer, case.waits, child))
        peer.setblocking(False)
        came.told += [f"sends {case.peer} x{datagram.hex()}" for datagram in received(peer)]
    return came


def send(peer, datagram, child):
    """Sends a datagram, if there is one, again until a socket is there that it came to."""
    for _ in range(1_000 * SECONDS):
        if datagram is None or child.poll() is not None:
            return
        peer.send(datagram)
        if not peer.getsockopt(socket.SOL_SOCKET, socket.SO_ERROR):
            return
        time.sleep(0.001)


def received(peer):
    """The datagrams that came to a socket."""
    while True:
        try:
            yield peer.recv(65_536)
        except (BlockingIOError, ConnectionRefusedError):
            return
