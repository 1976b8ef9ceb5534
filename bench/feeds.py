#!/usr/bin/env python3
"""Times the program on runs of growing length.

Usage: bench/feeds.py [PROGRAM]

A run of N feeds goes over 200 flows, and each feed is followed by four `next`. For each length the best of five
runs is printed, with its ratio to the length before: about 2.0 where the time grows as the run does.
"""
import os
import subprocess
import sys
import tempfile
import time

HEADER = "rp-schedule 1\nswitches 1\nchain 1\nlease 1000 1100\nratio 50\nmode strict\n"
FLOWS = 200
FEEDS = [500, 1000, 2000, 4000]
RUNS = 5


def schedule(feeds):
    """The text of a schedule of so many feeds."""
    events = []
    for i in range(feeds):
        events.append(f"feed 7 {i % FLOWS:02x}21\n")
        events.append("next\n" * 4)
    return HEADER + "".join(events)


def best_time(program, path):
    """The least time of some runs, in seconds, and how many lines a run writes."""
    best = None
    for _ in range(RUNS):
        begin = time.perf_counter()
        ran = subprocess.run([program, "run", "@count", path], stdout=subprocess.PIPE)
        passed = time.perf_counter() - begin
        if ran.returncode != 0:
            sys.exit(f"the program ended with status {ran.returncode}")
        best = passed if best is None else min(best, passed)
    return best, ran.stdout.count(b"\n")


def main():
    here = os.path.dirname(os.path.abspath(__file__))
    program = sys.argv[1] if len(sys.argv) > 1 else os.path.join(here, "../crates/rp_cli/out/rp_cli")
    program = os.path.abspath(program)
    before = None
    print(f"{'events':>8} {'lines':>8} {'seconds':>9} {'ratio':>6}")
    with tempfile.TemporaryDirectory() as folder:
        for feeds in FEEDS:
            path = os.path.join(folder, "run.sched")
            with open(path, "w") as out:
                out.write(schedule(feeds))
            seconds, lines = best_time(program, path)
            ratio = "" if before is None else f"{seconds / before:.2f}"
            print(f"{5 * feeds:>8} {lines:>8} {seconds:>9.3f} {ratio:>6}")
            before = seconds


if __name__ == "__main__":
    main()
