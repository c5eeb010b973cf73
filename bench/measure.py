#!/usr/bin/env python3
"""Times the built program on the largest run, by itself or beside another build.

    bench/measure.py PROGRAM [ROUNDS]
    bench/measure.py PROGRAM --against OTHER [ROUNDS]

The run of largest.toml has 65,536 blocks and 16 policies. The first form takes the first 1 to 16 of its policies, rings
of 1 to 1,024 slots and one, two and four processors. Of each it prints the median of ROUNDS runs (9 if left out) in
turn: wall time, processor time, and how often a thread gave up its processor or lost it.

The second form runs all policies by two programs in turn, PROGRAM and OTHER, and prints the medians and least values of
both, and PROGRAM's as a share of OTHER's. Both must write the same report. With valgrind it counts instructions too, on
a ring of 1,024 slots; they are the same in each run but for those of waits.

Other work on the machine changes all times: run it on a quiet one, and read the ratios.
"""
import argparse
import os
import re
import resource
import shutil
import statistics
import subprocess
import sys
import tempfile
import time

HERE = os.path.dirname(os.path.abspath(__file__))
POLICIES = (1, 2, 4, 8, 16)
RINGS = (1, 16, 128, 1024)
COMPARED_RINGS = (64, 128, 1024)
PROCESSORS = (1, 2, 4)
TITLE = f"{'processors':>10} {'ring':>5}"


def scenario(policies, ring):
    """The text of the largest run with so many of its policies on a ring of so many slots."""
    with open(f"{HERE}/largest.toml", encoding="ascii") as it:
        head, *rest = it.read().split("[[policy]]")
    return "[[policy]]".join(
        [head.replace("ring = 1024", f"ring = {ring}"), *rest[:policies]]
    )


def measured(program, text, processors, output=subprocess.DEVNULL):
    """Seconds on the wall and of the processors, and the switches, of one run on so many processors."""
    with tempfile.TemporaryFile() as data:
        data.write(text.encode())
        data.seek(0)
        before, begun = (
            resource.getrusage(resource.RUSAGE_CHILDREN),
            time.perf_counter(),
        )
        subprocess.run(
            [program],
            stdin=data,
            stdout=output,
            check=True,
            preexec_fn=lambda: os.sched_setaffinity(0, processors),
        )
        wall, after = time.perf_counter() - begun, resource.getrusage(
            resource.RUSAGE_CHILDREN
        )
    spent = after.ru_utime + after.ru_stime - before.ru_utime - before.ru_stime
    return (
        wall,
        spent,
        after.ru_nvcsw + after.ru_nivcsw - before.ru_nvcsw - before.ru_nivcsw,
    )


def report_of(program, text):
    """The report that a program writes."""
    return subprocess.run(
        [program], input=text.encode(), capture_output=True, check=True
    ).stdout


def instructions_of(program, text):
    """The instructions of a run, as valgrind counts them; None where it is missing."""
    if shutil.which("valgrind") is None:
        return None
    words = ["valgrind", "--tool=callgrind", "--callgrind-out-file=/dev/null", program]
    told = subprocess.run(
        words, input=text.encode(), capture_output=True, check=True
    ).stderr.decode()
    return int(re.search(r"Collected : (\d+)", told)[1])


def machine():
    """The processors that this process may use, and how many of them each table takes."""
    ours = sorted(os.sched_getaffinity(0))
    return ours, [it for it in PROCESSORS if it <= len(ours)]


def print_times(program, rounds):
    """Prints a row for each number of processors, ring and number of policies."""
    ours, counts = machine()
    print(
        f"{TITLE} {'policies':>8} {'wall ms':>9} {'processor ms':>12} {'switches':>9}"
    )
    for count in counts:
        cases = {(ring, policies): [] for ring in RINGS for policies in POLICIES}
        for _ in range(rounds):
            for case, runs in cases.items():
                runs.append(measured(program, scenario(case[1], case[0]), ours[:count]))
        for (ring, policies), runs in cases.items():
            wall, spent, switches = (statistics.median(it) for it in zip(*runs))
            print(
                f"{count:>10} {ring:>5} {policies:>8} {wall * 1000:>9.1f} {spent * 1000:>12.1f} {switches:>9.0f}",
                flush=True,
            )


def print_comparison(programs, rounds):
    """Prints a row for each number of processors and ring: what each program takes, and the first one's share."""
    ours, counts = machine()
    print(
        f"{TITLE} {'wall median':>20} {'wall least':>20} {'processor median':>20} {'switches':>16}"
    )
    for count in counts:
        for ring in COMPARED_RINGS:
            text = scenario(POLICIES[-1], ring)
            runs = [[], []]
            for _ in range(rounds):
                for program, its in zip(programs, runs):
                    its.append(measured(program, text, ours[:count]))
            walls, spent, switches = (
                [[run[k] for run in its] for its in runs] for k in range(3)
            )
            rows = [
                [statistics.median(it) * 1000 for it in walls],
                [min(it) * 1000 for it in walls],
                [statistics.median(it) * 1000 for it in spent],
            ]
            told = " ".join(f"{a:>6.1f} {b:>6.1f} {a / b:>6.3f}" for a, b in rows)
            print(
                f"{count:>10} {ring:>5} {told} {statistics.median(switches[0]):>8.0f} "
                f"{statistics.median(switches[1]):>7.0f}",
                flush=True,
            )


def compare(programs, rounds):
    """Compares two programs: their reports, times and instructions."""
    for ring in RINGS:
        first, other = (report_of(it, scenario(POLICIES[-1], ring)) for it in programs)
        if first != other:
            sys.exit(f"on a ring of {ring} the two reports differ")
    print_comparison(programs, rounds)
    counts = [instructions_of(it, scenario(POLICIES[-1], RINGS[-1])) for it in programs]
    if None in counts:
        print("instructions: not counted, since valgrind is missing")
    else:
        print(
            f"instructions: {counts[0]:,} and {counts[1]:,}, {counts[0] / counts[1]:.4f}"
        )


def main():
    """Reads the command line."""
    parser = argparse.ArgumentParser(
        description=__doc__, formatter_class=argparse.RawDescriptionHelpFormatter
    )
    parser.add_argument("program")
    parser.add_argument("rounds", nargs="?", type=int, default=9)
    parser.add_argument("--against", metavar="OTHER")
    asked = parser.parse_intermixed_args()
    if asked.against is None:
        print_times(os.path.abspath(asked.program), asked.rounds)
    else:
        compare(
            [os.path.abspath(asked.program), os.path.abspath(asked.against)],
            asked.rounds,
        )


if __name__ == "__main__":
    main()
