#!/usr/bin/env python3
"""Writes a document of so many bytes to standard output, to measure how documents are read.

    tools/large_document.py BYTES

It has as many switches with links, parts and queries as fit an eighth of the bytes each, up to the limits of a document
(256 switches, 4,096 ports, 1,024 parts, 256 queries), and one more part whose predicate has as many operands as fit.
"""
import sys

PORTS = ", ".join(str(port) for port in range(16, 0, -1))


def filled(room, most, line):
    """The lines for 1, 2, .. up to the most, as many as fit the room."""
    lines, size = [], 0
    while len(lines) < most and size < room:
        lines.append(line(len(lines) + 1))
        size += len(lines[-1]) + 1
    return lines


def switch(number):
    return f"switch s{number} = {number} ports {PORTS} limit 2000;"


def link(number):
    first, port = divmod(number - 1, 7)
    return f"link s{first + 1} {port + 1} s{first + 2} {port + 9};"


def main():
    size = int(sys.argv[1])
    share = size // 8
    switches = filled(share, 256, switch)
    count = len(switches)

    def part(number):
        return (
            f"part p{number} = if(switch=s{number % count + 1} and not tcp_dst={number},"
            f" mod(eth_dst=02:00:00:00:00:0a) >> fwd({number}), drop) + flood;"
        )

    def query(number):
        return (
            f"query q{number} = in_atom(switch=s{number % count + 1})"
            f" ^ ~in_group(true, [port of (1, 2, {number + 2})])*"
            f" ^ end_atom(ipv6_dst=2001:db8:0:0:0:0:0:{number:x}/32);"
        )

    lines = switches + filled(share, 7 * (count - 1), link) + filled(share, 1023, part)
    head = "\n".join(lines) + "\npart last = filter("
    tail = ") >> drop;\n" + "\n".join(filled(share, 256, query)) + "\n"
    operand, last = "port=1 or ", "port=1"
    room = size - len(head) - len(tail) - len(last)
    text = head + operand * (room // len(operand)) + last + tail
    sys.stdout.write(text + " " * (size - len(text)))


main()
