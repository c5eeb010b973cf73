#!/usr/bin/env python3
"""Says where the time of the gate goes.

    tools/measure.py checks [CRATE ..]    each crate, each crate's tests and the twenty slowest functions, from nothing

With no crate: all of them. It works on a copy of the repository with one job at a time; seconds are of processor time,
which another process beside it changes little. What it prints can be pasted into a table.
"""
import os
import re
import shutil
import subprocess
import sys
import tempfile
import time

TOP = os.path.dirname(os.path.dirname(os.path.abspath(__file__)))
TICKS = os.sysconf("SC_CLK_TCK")
SLOWEST = 20


def crates(names=()):
    """The crates, each after those that it stands on; where some are named, up to the last of these."""
    with open(f"{TOP}/crates.txt", encoding="utf-8") as file:
        listed = [
            line.split(":")[0]
            for line in file
            if ":" in line and not line.startswith("#")
        ]
    return listed[: max(map(listed.index, names)) + 1] if names else listed


def seconds_of(session):
    """The processor time that the processes of a session, and those that they waited for, have taken so far."""
    ticks = 0
    for name in filter(str.isdigit, os.listdir("/proc")):
        try:
            with open(f"/proc/{name}/stat", encoding="utf-8") as file:
                fields = file.read().rsplit(")", 1)[1].split()
        except OSError:
            continue
        if int(fields[3]) == session:
            ticks += sum(map(int, fields[11:15]))
    return ticks / TICKS


def lines_of(command, folder):
    """Each line that a command prints, with the processor time of the command until then; last its status."""
    ran = subprocess.Popen(
        command,
        cwd=folder,
        text=True,
        errors="replace",
        start_new_session=True,
        stdin=subprocess.DEVNULL,
        stdout=subprocess.PIPE,
        stderr=subprocess.STDOUT,
    )
    spent = 0
    for line in ran.stdout:
        spent = max(spent, seconds_of(ran.pid))
        yield line.rstrip("\n"), spent
    yield ran.wait(), spent


def check(folder, *flags):
    """One check: its lines, the processor time of each function's proof by name, the time of all, and the status."""
    lines, functions, before, spent, status = [], [], 0, 0, 1
    for line, spent in lines_of(
        ["rt", "check", "--jobs", "1", "--progress", *flags], folder
    ):
        if isinstance(line, int):
            status = line
        elif done := re.match(r"checked (\S+), \d+ of \d+$", line):
            functions.append((spent - before, done[1]))
            before = spent
        else:
            lines.append(line)
    return lines, functions, spent, status


def checks(names, copy):
    """The time of each crate and of its tests, and the functions that take longest."""
    slowest, sums = [], [0, 0]
    print(f"{'crate':16} {'proofs':>8} {'with tests':>11}")
    for name in crates(names):
        _, functions, proofs, status = check(f"{copy}/crates/{name}")
        if name not in names:
            continue
        shutil.rmtree(f"{copy}/crates/{name}/out/incremental", ignore_errors=True)
        _, of_tests, tests, with_tests = check(f"{copy}/crates/{name}", "--test")
        slowest += functions + [
            it for it in of_tests if it[1] not in dict(map(reversed, functions))
        ]
        sums = [sums[0] + proofs, sums[1] + tests]
        verdict = "" if status == with_tests == 0 else "  NOT PROVED"
        print(f"{name:16} {proofs:8.0f} {tests:11.0f}{verdict}", flush=True)
    print(f"{'all':16} {sums[0]:8.0f} {sums[1]:11.0f}\n")
    for seconds, function in sorted(slowest, reverse=True)[:SLOWEST]:
        print(f"{seconds:6.1f} {function}")


def main(words):
    """Runs one part on a copy."""
    with tempfile.TemporaryDirectory(prefix="crnsim-") as room:
        copy = f"{room}/copy"
        shutil.copytree(TOP, copy, ignore=shutil.ignore_patterns(".git", "out"))
        subprocess.run(["git", "init", "-q", copy], check=True)
        if words[:1] == ["checks"]:
            checks(words[1:] or crates(), copy)
        else:
            return __doc__
    return 0


if __name__ == "__main__":
    sys.exit(main(sys.argv[1:]))
