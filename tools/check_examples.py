#!/usr/bin/env python3
"""Runs the examples of examples/ and compares what is written with the stored texts: a document that has a schedule is compiled and
the schedule replayed; a session of edits is run, and its frames are shown with a line each: kind, length, and the text of a refusal.

    tools/check_examples.py [PROGRAM]          (at the top of the repository; after `rt ci` the program is at crates/pathq/out/pathq)

The status is 0 where all texts are as stored.
"""
import pathlib
import subprocess
import sys


def answer(program, command, data):
    """What the program writes for this input."""
    return subprocess.run([program, command], input=data, capture_output=True, check=True).stdout


def replay_of(program, document):
    """What the replay of the document's schedule writes."""
    schedule = document.with_suffix(".schedule").read_bytes()
    return answer(program, "replay", answer(program, "compile", document.read_bytes()) + schedule)


def frame_lines(data):
    """A line for each frame."""
    lines = []
    while data:
        length = int.from_bytes(data[1:9], "big")
        content = data[9:9 + length]
        words = [data[:1], b"%d" % length] + ([content] if data[:1] == b"R" else [])
        lines.append(b" ".join(words) + b"\n")
        data = data[9 + length:]
    return b"".join(lines)


def frames_of(program, session):
    """The frames of a session, a line each."""
    return frame_lines(answer(program, "session", session.read_bytes()))


def main():
    program = sys.argv[1] if len(sys.argv) > 1 else "crates/pathq/out/pathq"
    examples = pathlib.Path("examples")
    runs = [(it.with_suffix(".replay"), replay_of, it) for it in sorted(examples.glob("*.pq")) if it.with_suffix(".schedule").exists()]
    runs += [(it.with_suffix(".frames"), frames_of, it) for it in sorted(examples.glob("*.session"))]
    wrong = [source.name for stored, run, source in runs if run(program, source) != stored.read_bytes()]
    print(f"{len(runs) - len(wrong)} examples as stored" + (f"; otherwise: {', '.join(wrong)}" if wrong else ""))
    return 1 if wrong or not runs else 0


if __name__ == "__main__":
    sys.exit(main())
