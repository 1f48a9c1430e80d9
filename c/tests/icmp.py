#!/usr/bin/env python3
"""Tells a node by ICMP that nobody has the port of its peer: icmp.py HOW NODE PEER SECONDS, for c/tests/network.

NODE and PEER are HOST:PORT. HOW says what the message brings back as the datagram that was refused:

  guess          what somebody makes up who is off the path: datagrams with the node's and the peer's addresses, and GASNET_JOB
  DEVICE         what the node sent, as somebody on the path sees it pass at this device of a bridge
  later:DEVICE   the same, where each control datagram is made a question that the node asks only in an hour
"""
import os
import random
import socket
import struct
import sys
import time

UNREACHABLE, PORT = 3, 3
FRONT = 28 + 84  # the bytes that are brought back: the headers of IP and UDP, and a control datagram


def checksum(octets):
    octets += b"\0" * (len(octets) % 2)
    total = sum(struct.unpack(f"!{len(octets) // 2}H", octets))
    while total >> 16:
        total = (total & 0xFFFF) + (total >> 16)
    return ~total & 0xFFFF


def address(text):
    host, port = text.rsplit(":", 1)
    return socket.inet_aton(host), int(port)


def ip(source, target, protocol, content):
    header = struct.pack("!BBHHHBBH4s4s", 0x45, 0, 20 + len(content), random.randrange(65536), 0, 64, protocol, 0, source, target)
    return header[:10] + struct.pack("!H", checksum(header)) + header[12:] + content


def refusal(packet):
    """Of a packet that would have been refused."""
    message = struct.pack("!BBHI", UNREACHABLE, PORT, 0, 0) + packet[:FRONT]
    return message[:2] + struct.pack("!H", checksum(message)) + message[4:]


def control(job):
    """A question whether the peer is there, as somebody makes it up who knows GASNET_JOB and no run."""
    return b"GNL3\1\1\0\0" + struct.pack("!QQQQ", job, random.getrandbits(64), random.getrandbits(64), time.monotonic_ns() // 1000) + b"\0" * 44


def message(job):
    return b"GAM1\0\x80\0\0" + struct.pack("!QHHHHQQ", job, 0, 1, 0, 0, 1, 0)


def guess(node, peer, end):
    (host, port), (target, target_port) = node, peer
    out = socket.socket(socket.AF_INET, socket.SOCK_RAW, socket.IPPROTO_ICMP)
    sent, job = 0, int(os.environ["GASNET_JOB"])
    while time.time() < end:
        content = random.choice((b"\0" * 32, b"", control(job), message(job)))
        udp = struct.pack("!HHHH", port, target_port, 8 + len(content), 0) + content
        out.sendto(refusal(ip(host, target, socket.IPPROTO_UDP, udp)), (socket.inet_ntoa(host), 0))
        sent += 1
        time.sleep(0.02)
    return sent


def is_between(packet, node, peer):
    (host, port), (target, target_port) = node, peer
    return len(packet) >= 42 and packet[12:14] == b"\x08\0" and packet[23] == socket.IPPROTO_UDP and packet[26:34] == host + target and \
        packet[34:38] == struct.pack("!HH", port, target_port)


def asked_later(packet):
    """The same packet, but for the kind, the flags and the time of a control datagram (c/src/control.c)."""
    front, rest = packet[:28], packet[28:]
    if not rest.startswith(b"GNL"):
        return packet
    return front + rest[:4] + b"\1\1" + rest[6:32] + struct.pack("!Q", (time.monotonic_ns() // 1000) + 3_600_000_000) + rest[40:]


def watch(device, node, peer, end, altered=lambda packet: packet):
    """Each datagram of the node to the peer is refused, by a frame that comes from the bridge's port to the node."""
    wire = socket.socket(socket.AF_PACKET, socket.SOCK_RAW, socket.htons(3))
    wire.bind((device, 0))
    wire.settimeout(0.2)
    sent = 0
    while time.time() < end:
        try:
            packet = wire.recv(65536)
        except TimeoutError:
            continue
        if is_between(packet, node, peer):
            wire.send(packet[6:12] + packet[:6] + b"\x08\0" + ip(peer[0], node[0], socket.IPPROTO_ICMP, refusal(altered(packet[14:]))))
            sent += 1
    return sent


def main():
    how, node, peer, seconds = sys.argv[1], address(sys.argv[2]), address(sys.argv[3]), float(sys.argv[4])
    end = time.time() + seconds
    if how == "guess":
        sent = guess(node, peer, end)
    elif how.startswith("later:"):
        sent = watch(how.removeprefix("later:"), node, peer, end, asked_later)
    else:
        sent = watch(how, node, peer, end)
    print(f"sent {sent}")
    return 0 if sent else 1


if __name__ == "__main__":
    sys.exit(main())
