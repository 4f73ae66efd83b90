#!/usr/bin/env python3
"""Makes each single allocation of the built program fail in turn, and judges how it then ends.

    tools/fail_allocations.py PROGRAM [--every K] [--only NAME]

A run without failing allocations has to end as expected, and never for want of memory. Where one allocation fails, the
program has to end so too, with the whole output, or with `memory` (status 6), after a beginning of the output. Anything
else is a fault, and so is a beginning where the right end is a refusal. `--every` tries each K-th allocation alone. The
table has for each input the allocations, how many were tried, how they ended, and the seconds. It needs gcc; two
processors share the work.
"""
import argparse
import os
import subprocess
import sys
import tempfile
import time

HERE = os.path.dirname(os.path.abspath(__file__))
EXAMPLES = os.path.join(HERE, "..", "examples")
PROCESSES = 2
DONE, REFUSED, MEMORY = 0, 1, 6

ONE_PART = "switch s1 = 1 ports 1, 2; part one = filter(port=1) >> fwd(2);"
ONE_QUERY = (
    "switch s1 = 1 ports 1, 2; switch s2 = 2 ports 1, 2; switch s3 = 3 ports 1, 2; link s1 2 s2 1; link s2 2 s3 1; "
    "part a = filter(port=1) >> fwd(2); query q = in_atom(switch=s1) ^ in_atom(switch=s2)*;"
)
LABELS = (
    "switch s1 = 1 ports 1, 2; switch s2 = 2 ports 1, 3; link s1 2 s2 1; part go = filter(switch=s1) >> fwd(2) + "
    "filter(switch=s2) >> fwd(3); query g = in_group(true, [switch]) ^ out_atom(port=3);"
)

CAMPUS = """switch core = 1 ports 1, 2, 3;
switch east = 2 ports 1, 2, 3, 4, 5, 6, 7;
switch west = 3 ports 1, 2, 3, 4, 5, 6, 7;
switch fw = 4 ports 1;
link core 1 east 1; link core 2 west 1; link core 3 fw 1;
part up = filter(switch=east and not ipv4_dst=10.0.1.0/24
  or switch=west and not ipv4_dst=10.0.2.0/24) >> fwd(1);
part to_wall = filter(switch=core and not port=3) >> fwd(3);
part wall = filter(switch=fw and not tcp_dst=23);
part down = filter(switch=core and port=3) >>
  (filter(ipv4_dst=10.0.1.0/24) >> fwd(1) + filter(ipv4_dst=10.0.2.0/24) >> fwd(2));
part hosts_e = filter(switch=east) >> (
   filter(ipv4_dst=10.0.1.2) >> fwd(2) + filter(ipv4_dst=10.0.1.3) >> fwd(3)
 + filter(ipv4_dst=10.0.1.4) >> fwd(4) + filter(ipv4_dst=10.0.1.5) >> fwd(5)
 + filter(ipv4_dst=10.0.1.6) >> fwd(6) + filter(ipv4_dst=10.0.1.7) >> fwd(7));
part hosts_w = filter(switch=west) >> (
   filter(ipv4_dst=10.0.2.2) >> fwd(2) + filter(ipv4_dst=10.0.2.3) >> fwd(3)
 + filter(ipv4_dst=10.0.2.4) >> fwd(4) + filter(ipv4_dst=10.0.2.5) >> fwd(5)
 + filter(ipv4_dst=10.0.2.6) >> fwd(6) + filter(ipv4_dst=10.0.2.7) >> fwd(7));
query walled = in_atom(switch=east) ^ in_atom(true)* ^ in_atom(switch=fw) ^ in_atom(true)* ^ in_atom(switch=west);
query bypass = in_atom(switch=east) ^ in_atom(true)* ^ in_atom(switch=west)
  & ~(in_atom(true)* ^ in_atom(switch=fw) ^ in_atom(true)*);
"""
HOPS = b"inject 2 2 eth_type=2048 ip_proto=6 ipv4_src=10.0.1.2 ipv4_dst=10.0.2.3 tcp_dst=80\n" + 5 * b"hop 0\n"


def example(name):
    with open(os.path.join(EXAMPLES, name), "rb") as it:
        return it.read()


def answer(program, word, text):
    """The status and the output of a run in which nothing fails."""
    run = subprocess.run([program, word], input=text, capture_output=True, check=False)
    return run.returncode, run.stdout


def inputs(program):
    """Each input: its name, the command, the text, and the status that is right."""
    one, campus = (answer(program, "compile", text.encode())[1] for text in (ONE_PART, CAMPUS))
    loop = answer(program, "compile", example("loop.pq"))[1]
    yield "compile one part", "compile", ONE_PART.encode(), DONE
    yield "compile one query", "compile", ONE_QUERY.encode(), DONE
    yield "compile labels", "compile", LABELS.encode(), DONE
    yield "compile a fault", "compile", ONE_PART[:-1].encode(), REFUSED
    yield "compile a campus", "compile", CAMPUS.encode(), DONE
    yield "session", "session", example("two_ports.session"), DONE
    yield "replay a loop", "replay", loop + example("loop.schedule"), DONE
    yield "replay a fault", "replay", loop + b"hop x\n", REFUSED
    yield "replay a campus", "replay", campus + HOPS, DONE
    yield "inspect one part", "inspect", one, DONE
    yield "inspect a campus", "inspect", campus, DONE


def swept(program, word, folder, every, right):
    """The lines of all processes over one input, which lies in the folder; each of them has to end as is right."""
    running = []
    for first in range(PROCESSES):
        results = os.path.join(folder, f"results{first}")
        names = {"INPUT": "input", "OUTPUT": "output", "RESULTS": f"results{first}"}
        setting = {f"FAIL_{key}": os.path.join(folder, name) for key, name in names.items()}
        setting |= {"FAIL_EVERY": str(every * PROCESSES), "FAIL_FIRST": str(first * every)}
        setting["LD_PRELOAD"] = os.path.join(folder, "fail_allocations.so")
        running.append((subprocess.Popen([program, word], env=os.environ | setting, stderr=subprocess.DEVNULL), results))
    for process, results in running:
        assert process.wait() == right, f"{word}: a sweep ended with status {process.returncode}"
        with open(results, encoding="ascii") as it:
            yield from it.read().splitlines()


def judged(line, right, size, may_begin):
    """How one child ended: `right`, `memory`, or why that is a fault."""
    _, status, put, differs = map(int, line.split())
    if os.WIFSIGNALED(status):
        return f"signal {os.WTERMSIG(status)}"
    if differs:
        return "another output"
    code = os.WEXITSTATUS(status)
    if code == right and put == size:
        return "right"
    if code == MEMORY and (may_begin or put == 0):
        return "memory"
    return f"status {code} after {put} bytes"


def row(program, folder, case, every):
    """Prints the line of one input; returns how many faults there were."""
    name, word, text, right = case
    code, output = answer(program, word, text)
    assert code == right, f"{name}: status {code}"
    for file, content in (("input", text), ("output", output)):
        with open(os.path.join(folder, file), "wb") as it:
            it.write(content)
    begin, ends, count = time.time(), {}, 0
    for line in swept(program, word, folder, every, right):
        if line.count(" ") == 2:
            count, put, differs = map(int, line.split())
            assert (put, differs) == (len(output), 0), f"{name}: another output without a failing allocation"
            continue
        end = judged(line, right, len(output), right == DONE)
        if end not in ("right", "memory"):
            print(f"{name}: allocation {line.split()[0]}: {end}")
            end = "fault"
        ends[end] = ends.get(end, 0) + 1
    tried, faults = sum(ends.values()), ends.get("fault", 0)
    print(f"{name:20} {count:10} {tried:8} {ends.get('right', 0):8} {ends.get('memory', 0):8} {faults:8} {time.time() - begin:8.1f}", flush=True)
    return faults + (count == 0)


def main():
    parser = argparse.ArgumentParser()
    parser.add_argument("program")
    parser.add_argument("--every", type=int, default=1)
    parser.add_argument("--only")
    said = parser.parse_args()
    program = os.path.abspath(said.program)
    print(f"{'input':20} {'allocations':>10} {'tried':>7} {'right':>8} {'memory':>8} {'faults':>8} {'seconds':>8}")
    faults = 0
    with tempfile.TemporaryDirectory() as folder:
        words = ["gcc", "-O2", "-shared", "-fPIC", "-o", f"{folder}/fail_allocations.so", f"{HERE}/fail_allocations.c"]
        subprocess.run(words, check=True)
        for case in inputs(program):
            if said.only in (None, case[0]):
                faults += row(program, folder, case, said.every)
    sys.exit(1 if faults else 0)


if __name__ == "__main__":
    main()
