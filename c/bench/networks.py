"""Networks of this machine's own, for c/bench/network and c/tests/network: a loopback that loses packets, hosts on a bridge whose
ports have a rate and a queue, and two hosts with a delay between them.

A host is a network namespace without a name: that of a child which waits for the end of a pipe from this process. So the system
takes the namespace away, with its devices, once this process is gone and what it started there has ended, however they ended.
What is started here ends with this process, or when its time is over. All addresses lie in the namespaces.
"""
import os
import shutil
import signal
import subprocess
import sys
import time
from pathlib import Path

BENCH = Path(__file__).resolve().parent
FLAGS = ["-O2", "-Wall", "-Wextra", "-D_GNU_SOURCE"]
TOOLS = ("ip", "tc", "nft", "ethtool", "unshare", "nsenter", "setpriv", "timeout")
BOUNDED = ("setpriv", "--pdeathsig", "TERM", "timeout", "-k", "2")  # and a time: what runs so ends with us, or then
BURST = "32k"  # the bytes that a port sends at once, as it was idle


class Unmade(Exception):
    """The machine doesn't let us make a network."""


def must(*words):
    """What a command writes. A network can't be made where it fails."""
    try:
        done = subprocess.run([str(word) for word in words], capture_output=True, text=True, timeout=30)
    except (OSError, subprocess.TimeoutExpired) as why:
        raise Unmade(f"`{words[0]}`: {why}") from why
    if done.returncode:
        raise Unmade(f"`{' '.join(map(str, words))}`: {done.stderr.strip()}")
    return done.stdout


def end_by_signals():
    """Signals that end this process end it as `exit` does, so that what it started is ended too."""
    for name in (signal.SIGTERM, signal.SIGHUP, signal.SIGINT):
        signal.signal(name, lambda number, frame: sys.exit(128 + number))


class Ended:
    """How a process ended, and what it wrote. The status is 124 or 137 where its time was over."""

    def __init__(self, status, out, err):
        self.status, self.out, self.err = status, out, err
        self.is_late = status in (124, 137)


class Processes:
    """Processes that run side by side, each with its time."""

    def __init__(self):
        self.running = []

    def __enter__(self):
        return self

    def start(self, host, words, limit, env=None):
        words = [*BOUNDED, str(limit), *(host.within(*words) if host else map(str, words))]
        child = subprocess.Popen(words, stdin=subprocess.DEVNULL, stdout=subprocess.PIPE, stderr=subprocess.PIPE, text=True,
                                 env={**os.environ, **(env or {})})
        self.running.append(child)
        return child

    def finish(self, children=None):
        """How each of them ended."""
        found = []
        for child in children or self.running:
            out, err = child.communicate()
            found.append(Ended(child.returncode, out, err))
        return found

    def end(self, child):
        """Asks one to end, which runs until then: how it ended."""
        child.send_signal(signal.SIGTERM)
        return self.finish([child])[0]

    def __exit__(self, *rest):
        for child in self.running:
            if child.poll() is None:
                child.terminate()
        for child in self.running:
            child.wait()
            child.stdout.close()
            child.stderr.close()


class Host:
    """A network namespace."""

    def __init__(self):
        self.keeper = subprocess.Popen(["unshare", "--net", "sh", "-c", "echo made; exec cat >/dev/null"], stdin=subprocess.PIPE,
                                       stdout=subprocess.PIPE, stderr=subprocess.PIPE, start_new_session=True)
        if self.keeper.stdout.readline() != b"made\n":
            why = self.keeper.stderr.read().decode().strip()
            self.drop()
            raise Unmade(f"`unshare --net`: {why}")
        try:
            self.must("ip", "link", "set", "lo", "up")
        except Unmade:
            self.drop()
            raise

    def within(self, *words):
        return ["nsenter", f"--net=/proc/{self.keeper.pid}/ns/net", "--", *map(str, words)]

    def must(self, *words):
        return must(*self.within(*words))

    def cut_packets(self, device):
        """The device's packets have its MTU, as on a wire: the system doesn't hand on larger ones."""
        for part in ("gso", "gro", "tso", "tx-udp-segmentation"):
            subprocess.run(self.within("ethtool", "-K", device, part, "off"), capture_output=True)

    def drop(self):
        for pipe in (self.keeper.stdin, self.keeper.stdout, self.keeper.stderr):
            pipe.close()
        self.keeper.wait()


class Network:
    """Some hosts. `addresses` are those of the hosts that nodes may be on."""

    def __init__(self):
        self.hosts, self.addresses = [], []

    def __enter__(self):
        try:
            self.make()
        except BaseException:
            self.drop()
            raise
        return self

    def __exit__(self, *rest):
        self.drop()

    def host(self):
        self.hosts.append(Host())
        return self.hosts[-1]

    def drop(self):
        for host in self.hosts:
            host.drop()
        self.hosts = []

    def job(self, words, limit, env=None):
        """Runs a program as a node on each host; how they ended."""
        own = {"GASNET_JOB": str(time.monotonic_ns() % 1_000_000_007), "GASNET_HOSTS": " ".join(self.addresses), "GASNET_COUNTS": "1"}
        with Processes() as nodes:
            for rank in reversed(range(len(self.addresses))):
                nodes.start(self.hosts[rank], words, limit, {**own, **(env or {}), "GASNET_RANK": str(rank)})
            return nodes.finish()


class Loopback(Network):
    """One host, whose loopback has this MTU, and loses this percentage of its packets of TCP and UDP."""

    def __init__(self, mtu=65536, loss=0):
        super().__init__()
        self.mtu, self.loss = mtu, loss

    def make(self):
        host = self.host()
        self.addresses = ["127.0.0.1"]
        host.must("ip", "link", "set", "lo", "mtu", self.mtu)
        host.cut_packets("lo")
        if self.loss:
            host.must("nft", "add", "table", "inet", "loss")
            host.must("nft", "add", "chain", "inet", "loss", "packets", "{ type filter hook prerouting priority -300; }")
            host.must("nft", "add", "rule", "inet", "loss", "packets", "meta", "l4proto", "{ tcp, udp }", "numgen", "random", "mod",
                      100_000, "<", round(self.loss * 1000), "drop")

    def run(self, words, limit, env=None):
        with Processes() as processes:
            processes.start(self.hosts[0], words, limit, env)
            return processes.finish()[0]


class Bridge(Network):
    """Hosts on a bridge, at an MTU of 1,500. The bridge's ports to the first `slow` hosts send at a rate (as tc has it), behind a
    queue of so many bytes, as a switch's do."""

    def __init__(self, count, rate=None, queue=0, slow=1):
        super().__init__()
        self.count, self.rate, self.queue, self.slow = count, rate, queue, slow

    def make(self):
        hosts = [self.host() for _ in range(self.count)]
        self.addresses = [f"10.9.0.{rank + 1}" for rank in range(self.count)]
        self.bridge = self.host()
        self.bridge.must("ip", "link", "add", "bridge0", "type", "bridge")
        self.bridge.must("ip", "link", "set", "bridge0", "up")
        for rank, host in enumerate(hosts):
            self.join(rank, host)

    def join(self, rank, host):
        port = f"to{rank}"
        self.bridge.must("ip", "link", "add", port, "type", "veth", "peer", "name", "way0", "netns", host.keeper.pid)
        self.bridge.must("ip", "link", "set", port, "master", "bridge0", "up")
        host.must("ip", "addr", "add", f"{self.addresses[rank]}/24", "dev", "way0")
        host.must("ip", "link", "set", "way0", "up")
        host.cut_packets("way0")
        self.bridge.cut_packets(port)
        if self.rate and rank < self.slow:
            self.bridge.must("tc", "qdisc", "add", "dev", port, "root", "tbf", "rate", self.rate, "burst", BURST, "limit", self.queue)


class Delay(Network):
    """Two hosts between which each packet takes so many milliseconds, carried by the program `relay` in this folder."""

    def __init__(self, milliseconds, programs):
        super().__init__()
        self.milliseconds, self.programs, self.processes = milliseconds, programs, Processes()

    def make(self):
        hosts = [self.host(), self.host()]
        self.addresses = ["10.9.1.1", "10.9.1.2"]
        words = [self.programs / "relay", *(host.keeper.pid for host in hosts), self.milliseconds]
        self.relay = self.processes.start(None, words, 300)
        if self.relay.stdout.readline() != "ready\n":
            raise Unmade(f"relay: {self.relay.stderr.read().strip()}")
        for host, own, other in zip(hosts, self.addresses, reversed(self.addresses)):
            host.must("ip", "addr", "add", own, "peer", other, "dev", "way0")
            host.must("ip", "link", "set", "way0", "mtu", 1500, "up")

    def carried(self):
        """What the relay counted. It carries nothing any more."""
        return self.processes.end(self.relay).out

    def drop(self):
        self.processes.__exit__()
        super().drop()


class Requests:
    """Counts the requests that come to the devices of a host, while it is entered: `text` has the counts then."""

    def __init__(self, host, programs):
        self.host, self.programs, self.processes, self.text = host, programs, Processes(), ""

    def __enter__(self):
        self.counter = self.processes.start(self.host, [self.programs / "repeats"], 600)
        if self.counter.stdout.readline() != "ready\n":
            raise Unmade(f"repeats: {self.counter.stderr.read().strip()}")
        return self

    def __exit__(self, *rest):
        self.text = self.processes.end(self.counter).out
        self.processes.__exit__()


def reason_against():
    """Why this machine can't have such networks; None where it can."""
    if os.geteuid():
        return "it needs root"
    lacking = [tool for tool in TOOLS if not shutil.which(tool)]
    if lacking:
        return f"there is no {', '.join(lacking)} (Debian: iproute2, nftables, ethtool, util-linux)"
    try:
        with Loopback(1500, 1), Bridge(2, "1gbit", 150_000):
            return None
    except Unmade as why:
        return str(why)


def compile_all(compiler, names, folder):
    """Compiles programs of this folder into another one."""
    folder.mkdir(parents=True, exist_ok=True)
    for name in names:
        words = [str(word) for word in (compiler, *FLAGS, BENCH / f"{name}.c", "-o", folder / name)]
        if subprocess.run(words).returncode:
            sys.exit(f"`{' '.join(words)}` failed: run `make -C c` first")
