#!/usr/bin/env python3
"""Times a switch on packets over few and over many flows, with its buffer of Puts empty and half full.

Usage: bench/packets.py [PROGRAM [PACKETS]]

The program is crates/switch_bench, and its processor time is taken. Of each number of flows the best of five runs with
100,000 packets counts, less the best of five runs with none, in which each flow gets its lease alone. With a half-full buffer each Ack waits until 512
others have come after it. A switch remembers the marks of 64 outputs that wait of a flow, so that of one flow no output
is released then: its Acks come for marks that are forgotten. The ratio is that to the least time: within 1.5 is wanted.
"""
import os
import resource
import subprocess
import sys

FLOWS = [1, 32, 1024]
WAITING = [0, 512]
MARKS = 64
PACKETS = 100000
RUNS = 5


def spent():
    """The processor time of all programs that were run, in seconds."""
    used = resource.getrusage(resource.RUSAGE_CHILDREN)
    return used.ru_utime + used.ru_stime


def best_time(program, flows, packets, waiting):
    """The least processor time of some runs, in seconds."""
    best = None
    remembered = waiting < MARKS * flows
    wanted = flows + (max(packets - waiting, 0) if remembered else 0)
    for _ in range(RUNS):
        begin = spent()
        ran = subprocess.run([program], input=f"{flows} {packets} {waiting}\n".encode(), stdout=subprocess.PIPE)
        passed = spent() - begin
        if ran.stdout != f"{wanted}\n".encode():
            sys.exit(f"of {packets} packets over {flows} flows, {waiting} of them waiting, it released {ran.stdout}")
        best = passed if best is None else min(best, passed)
    return best


def main():
    here = os.path.dirname(os.path.abspath(__file__))
    program = sys.argv[1] if len(sys.argv) > 1 else os.path.join(here, "../crates/switch_bench/out/switch_bench")
    program = os.path.abspath(program)
    packets = int(sys.argv[2]) if len(sys.argv) > 2 else PACKETS
    cases = [(flows, waiting) for waiting in WAITING for flows in FLOWS]
    times = [best_time(program, f, packets, w) - best_time(program, f, 0, w) for f, w in cases]
    least = min(times)
    print(f"{'flows':>8} {'waiting':>8} {'seconds':>9} {'ratio':>6}")
    for (flows, waiting), seconds in zip(cases, times):
        print(f"{flows:>8} {waiting:>8} {seconds:>9.3f} {seconds / least:>6.2f}")


if __name__ == "__main__":
    main()
