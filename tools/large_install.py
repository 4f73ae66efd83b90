#!/usr/bin/env python3
"""Writes an install of one switch with many entries, and a schedule behind it, to standard output.

    tools/large_install.py ENTRIES HOPS

The switch has 64 ports. Table 0 has one entry for each port, which pushes a VLAN header with the number 2 and goes on to
table 1. Table 1 has ENTRIES entries for the TCP ports 1, 2, .., all with the VLAN number 2; every second one sends by
its group to two ports, the others send to one. Numbers are big-endian (OpenFlow 1.3.5, sections 7.2.3, 7.3.4). Of the
HOPS packets each enters at one port and hops once; with 0 hops only the install is written.
"""
import struct
import sys

PORTS = 64
TAG = 0x1002


def field(number, value):
    return struct.pack(">HBB", 0x8000, number << 1, len(value)) + value


def match(*fields):
    inside = b"".join(fields)
    length = 4 + len(inside)
    return struct.pack(">HH", 1, length) + inside + bytes(-length % 8)


def output(port):
    return struct.pack(">HHIH6x", 0, 16, port, 0)


PUSH = struct.pack(">HHH2x", 17, 8, 0x8100)
POP = struct.pack(">HH4x", 18, 8)


def set_vlan(word):
    inside = field(6, struct.pack(">H", word))
    return struct.pack(">HH", 25, 16) + inside + bytes(12 - len(inside))


def apply(*actions):
    inside = b"".join(actions)
    return struct.pack(">HHI", 4, 8 + len(inside), 0) + inside


def goto(table):
    return struct.pack(">HHB3x", 1, 8, table)


def message(kind, body):
    return struct.pack(">BBHI", 4, kind, 8 + len(body), 1) + body


def add(table, priority, matched, instructions):
    none = 0xFFFFFFFF
    head = struct.pack(">QQBBHHHIIIHH", 0, 0, table, 0, 0, 0, priority, none, none, none, 0, 0)
    return message(14, head + matched + instructions)


def group(number, ports):
    buckets = b"".join(
        struct.pack(">HHIII", 40, 0, 0xFFFFFFFF, 0xFFFFFFFF, 0) + POP + output(port) for port in ports
    )
    return message(15, struct.pack(">HBBI", 0, 0, 0, number) + buckets)


def of_port(port):
    matched = match(field(0, struct.pack(">I", port)), field(6, struct.pack(">H", 0)))
    return add(0, 0xFFFF - port, matched, apply(PUSH, set_vlan(TAG)) + goto(1))


def of_service(number):
    matched = match(
        field(6, struct.pack(">H", TAG)),
        field(5, struct.pack(">H", 0x0800)),
        field(10, b"\x06"),
        field(14, struct.pack(">H", number)),
    )
    if number % 2:
        actions = apply(POP, output(number % PORTS + 1))
    else:
        actions = apply(struct.pack(">HHI", 22, 8, number))
    return add(1, 0xFFFF - number, matched, actions)


def install(entries):
    numbers = range(1, entries + 1)
    messages = [group(n, (n % PORTS + 1, (n + 1) % PORTS + 1)) for n in numbers if n % 2 == 0]
    messages += [of_port(port) for port in range(1, PORTS + 1)]
    messages += [of_service(n) for n in numbers]
    ports = b"".join(struct.pack(">I", port) for port in range(1, PORTS + 1))
    head = b"PQI2" + struct.pack(">HQH", 1, 1, PORTS) + ports + struct.pack(">HHH", 0, 0, 0)
    return head + struct.pack(">I", len(messages)) + b"".join(messages)


def schedule(entries, hops):
    for k in range(hops):
        port, service = k % PORTS + 1, k * 7919 % entries + 1
        yield f"inject 1 {port} eth_type=2048 ip_proto=6 tcp_dst={service}\nhop 0\n".encode()


def main():
    entries, hops = int(sys.argv[1]), int(sys.argv[2])
    sys.stdout.buffer.write(install(entries))
    for lines in schedule(entries, hops):
        sys.stdout.buffer.write(lines)


main()
