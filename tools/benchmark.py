#!/usr/bin/env python3
"""Times the built program: `compile` on documents, and `inspect` on the installs so written.

    tools/benchmark.py PROGRAM DOCUMENT ..

Of five runs each the best is told, in seconds of a processor, with the greatest peak memory of a `compile` in millions of bytes
(that of this script, some ten, where the program takes less).
"""
import json
import os
import sys
import tempfile

RUNS = 5


def run(program, word, source, target):
    """Runs one command; returns its status, its seconds of a processor and its peak memory in millions of bytes."""
    pid = os.fork()
    if pid == 0:
        os.dup2(os.open(source, os.O_RDONLY), 0)
        os.dup2(os.open(target, os.O_WRONLY | os.O_CREAT | os.O_TRUNC), 1)
        os.execv(program, [program, word])
    _, status, usage = os.wait4(pid, 0)
    return os.waitstatus_to_exitcode(status), usage.ru_utime + usage.ru_stime, usage.ru_maxrss * 1024 / 1e6


def best(program, word, source, target):
    runs = [run(program, word, source, target) for _ in range(RUNS)]
    return runs[0][0], min(seconds for _, seconds, _ in runs), max(memory for _, _, memory in runs)


def main():
    program, *documents = sys.argv[1:]
    print(f"{'document':30} {'entries':>8} {'bytes':>10} {'compile':>8} {'inspect':>8} {'ratio':>6} {'MB':>6} {'MB/MB':>6}")
    for document in documents:
        with tempfile.TemporaryDirectory() as folder:
            install, text = f"{folder}/install", f"{folder}/text"
            code, seconds, memory = best(program, "compile", document, install)
            name = os.path.basename(document)
            if code:
                print(f"{name:30} status {code}")
                continue
            size = os.path.getsize(install)
            _, shown, _ = best(program, "inspect", install, text)
            with open(text, encoding="utf-8") as file:
                entries = sum(switch["entries"] for switch in json.load(file)["switches"])
            print(f"{name:30} {entries:8} {size:10} {seconds:8.3f} {shown:8.3f} {seconds / shown:6.2f} {memory:6.1f} {memory * 1e6 / size:6.1f}")


if __name__ == "__main__":
    main()
