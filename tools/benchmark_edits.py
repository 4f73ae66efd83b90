#!/usr/bin/env python3
"""Times the edits of a session of the built program, beside as many fresh compiles of the same documents.

    tools/benchmark_edits.py PROGRAM N          (on the document of `generate N`)

Each row is one edit and the one that puts the old text back, made in turn: one switch's route of a part, the routes of a part at all
switches, and a query. It tells seconds of a processor for all edits, for all compiles, and the first by the second.
"""
import re
import resource
import subprocess
import sys


def spent(program, word, text):
    """Runs one command on a text; returns its seconds of a processor, and what it wrote."""
    before = resource.getrusage(resource.RUSAGE_CHILDREN)
    written = subprocess.run([program, word], input=text.encode(), capture_output=True, check=True).stdout
    after = resource.getrusage(resource.RUSAGE_CHILDREN)
    return after.ru_utime + after.ru_stime - before.ru_utime - before.ru_stime, written


def frames(written):
    """The kinds of the frames, in order."""
    kinds, at = "", 0
    while at < len(written):
        kinds += chr(written[at])
        at += 9 + int.from_bytes(written[at + 1 : at + 9], "big")
    return kinds


def session(document, pieces):
    return document + "".join(f"%%\n{it}\n" for it in pieces)


def row(program, what, document, old, new, times):
    """Tells what so many edits of a statement cost."""
    assert old in document and old != new
    edits = [(new, old)[number % 2] for number in range(times)]
    alone, _ = spent(program, "session", session(document, []))
    both, written = spent(program, "session", session(document, edits))
    assert frames(written) == "I" + "M" * times + "I", frames(written)
    texts = [document.replace(old, new), document]
    fresh = sum(spent(program, "compile", texts[number % 2])[0] for number in range(times))
    print(f"{what}: {times} edits {both - alone:.2f} s, fresh {fresh:.2f} s, ratio {(both - alone) / fresh:.2f}")


def main():
    program, count = sys.argv[1], int(sys.argv[2])
    document = subprocess.run([program, "generate", str(count)], capture_output=True, check=True, text=True).stdout
    part = re.search(r"^part p1 = .*;$", document, re.M).group(0)
    middle = f"filter(switch=s{count // 2}) >> fwd(1)"
    turned = {"1": "2", "2": "1", "3": "1"}
    query = re.search(r"^query q1 = .*;$", document, re.M).group(0)
    row(program, "one switch", document, part, part.replace(middle, middle.replace("fwd(1)", "fwd(2)")), 200)
    row(program, "all switches", document, part, re.sub(r"fwd\((\d)\)", lambda it: f"fwd({turned[it.group(1)]})", part), 200)
    row(program, "a query", document, query, query.replace(f"switch=s{count})", f"switch=s{count - 1})"), 50)


if __name__ == "__main__":
    main()
