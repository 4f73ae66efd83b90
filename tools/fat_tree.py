#!/usr/bin/env python3
"""Writes a document of a fat tree of 20 switches to standard output (Al-Fares, Loukissas and Vahdat, SIGCOMM 2008, with k = 4).

    tools/fat_tree.py [QUERY ..]

There are four core switches c1 to c4, and four pods p of two aggregation switches ap1, ap2 and two edge switches ep1, ep2.
Ports 1 and 2 lead up, 3 and 4 down; a core switch has port p to pod p, and an edge switch has its hosts at ports 3 and 4. The
hosts of the edge switch epi are in 10.p.i.0/24, and a packet goes by its destination alone.

QUERY is the name of a query after Narayana and others (NSDI 2016): sources, matrix, lost, bypass, again or either; or
waypoints, which writes ten queries.
"""
import sys

PODS = range(1, 5)
EDGES = [f"e{p}{i}" for p in PODS for i in (1, 2)]
ANY = "in_atom(true)*"


def visit(switch):
    return f"in_atom(switch={switch})"


def path(*steps):
    return " ^ ".join(steps)


QUERIES = {
    # where traffic to one edge switch comes from
    "sources": [path(f"in_group(true, [switch of ({', '.join(EDGES)})])", ANY, visit("e42"))],
    # how much goes from each edge switch to each
    "matrix": [
        path(f"in_group(true, [switch of ({', '.join(EDGES)})])", ANY, f"out_group(port=3 or port=4, [switch of ({', '.join(EDGES)})])")
    ],
    # packets that a switch drops on their way
    "lost": [path("in_atom(true)", ANY, "end_atom(true)")],
    # from one edge to another without passing a core switch
    "bypass": [path(visit("e11"), "in_atom(not switch=c1)*", visit("e42"))],
    # twice through one switch
    "again": [path(ANY, visit("a11"), ANY, visit("a11"))],
    # by one of two core switches
    "either": [path(visit("e11"), ANY, f"({visit('c1')} | {visit('c3')})", ANY, visit("e42"))],
    # ten ways from one edge switch by a core switch
    "waypoints": [path(visit("e11"), ANY, visit(f"c{n % 4 + 1}"), ANY, visit(EDGES[1 + n % 7])) for n in range(10)],
}


def statements(queries):
    for core in range(1, 5):
        yield f"switch c{core} = {core} ports 1, 2, 3, 4 limit 16384;"
    for p in PODS:
        for kind, base in (("a", 100), ("e", 200)):
            for i in (1, 2):
                yield f"switch {kind}{p}{i} = {base + 10 * p + i} ports 1, 2, 3, 4 limit 16384;"
    for p in PODS:
        for i in (1, 2):
            for up in (1, 2):
                yield f"link a{p}{i} {up} c{2 * i + up - 2} {p};"
                yield f"link e{p}{i} {up} a{p}{up} {i + 2};"
    for p in PODS:
        for i in (1, 2):
            here = f"10.{p}.{i}.0/24"
            hosts = " + ".join(f"filter(ipv4_dst=10.{p}.{i}.{host}) >> fwd({host + 1})" for host in (2, 3))
            away = f"filter(ipv4_dst=10.0.0.0/8) >> fwd({i})"
            yield f"part e{p}{i} = filter(switch=e{p}{i}) >> if(ipv4_dst={here}, {hosts}, {away});"
            down = " + ".join(f"filter(ipv4_dst=10.{p}.{edge}.0/24) >> fwd({edge + 2})" for edge in (1, 2))
            yield f"part a{p}{i} = filter(switch=a{p}{i}) >> if(ipv4_dst=10.{p}.0.0/16, {down}, fwd({p % 2 + 1}));"
    for core in range(1, 5):
        downs = " + ".join(f"filter(ipv4_dst=10.{p}.0.0/16) >> fwd({p})" for p in PODS)
        yield f"part c{core} = filter(switch=c{core}) >> ({downs});"
    for name in queries:
        for number, text in enumerate(QUERIES[name], 1):
            yield f"query {name}{number} = {text};"


def main():
    print("\n".join(statements(sys.argv[1:])))


if __name__ == "__main__":
    main()
