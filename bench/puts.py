#!/usr/bin/env python3
"""Times a replica of the store on Puts over few and over many flows.

Usage: bench/puts.py [PROGRAM]

The program is crates/store_bench. Of each number of flows the best of five runs with 100,000 Puts is taken, less the best
of five runs with none, in which the flows are granted alone. The ratio is that to the least time: within 2 is wanted.
"""
import os
import subprocess
import sys
import time

FLOWS = [1, 1000, 60000]
PUTS = 100000
RUNS = 5


def best_time(program, flows, puts):
    """The least time of some runs, in seconds."""
    best = None
    for _ in range(RUNS):
        begin = time.perf_counter()
        ran = subprocess.run([program], input=f"{flows} {puts}\n".encode(), stdout=subprocess.PIPE)
        passed = time.perf_counter() - begin
        if ran.stdout != f"{puts}\n".encode():
            sys.exit(f"of {puts} Puts over {flows} flows it applied {ran.stdout}")
        best = passed if best is None else min(best, passed)
    return best


def main():
    here = os.path.dirname(os.path.abspath(__file__))
    program = sys.argv[1] if len(sys.argv) > 1 else os.path.join(here, "../crates/store_bench/out/store_bench")
    program = os.path.abspath(program)
    times = [best_time(program, flows, PUTS) - best_time(program, flows, 0) for flows in FLOWS]
    print(f"{'flows':>8} {'seconds':>9} {'ratio':>6}")
    for flows, seconds in zip(FLOWS, times):
        print(f"{flows:>8} {seconds:>9.3f} {seconds / min(times):>6.2f}")


if __name__ == "__main__":
    main()
