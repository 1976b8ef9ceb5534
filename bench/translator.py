#!/usr/bin/env python3
"""Times a program, the address translator of rows/address-translator, by processor time.

Usage: bench/translator.py [PROGRAM]

`plain` gives it packets of 1,000 hosts on one switch that never fails; `run` gives it feeds of 1,000 hosts, each followed by four
`next`, over one switch and one replica. For each length the best of five runs is printed, with its ratio to the length before.
"""
import os
import resource
import subprocess
import sys
import tempfile

HEADER = "rp-schedule 1\nswitches 1\nchain 1\nlease 900000 990000\nratio 50\nmode strict\n"
HOSTS = 1000
PACKETS = [5000, 10000, 20000]
FEEDS = [1000, 2000, 4000]
RUNS = 5


def feed(number):
    """A packet of some host to one of three networks."""
    ends = f"{0x0A000000 + number % HOSTS:08x}{(0x0A010203, 0x08080808, 0x0A020304)[number % 3]:08x}"
    return f"feed 1 0200000000010200000000020800450000140000000040110000{ends}\n"


def plain_schedule(packets):
    return HEADER + "".join(feed(number) for number in range(packets))


def run_schedule(feeds):
    return HEADER + "".join(feed(number) + "next\n" * 4 for number in range(feeds))


def processor_time(words):
    """The processor time of a run of these words, in seconds."""
    before = resource.getrusage(resource.RUSAGE_CHILDREN)
    ran = subprocess.run(words, stdout=subprocess.DEVNULL)
    after = resource.getrusage(resource.RUSAGE_CHILDREN)
    if ran.returncode != 0:
        sys.exit(f"the program ended with status {ran.returncode}")
    return after.ru_utime + after.ru_stime - before.ru_utime - before.ru_stime


def main():
    here = os.path.dirname(os.path.abspath(__file__))
    program = os.path.abspath(sys.argv[1] if len(sys.argv) > 1 else os.path.join(here, "../crates/rp_cli/out/rp_cli"))
    translator = os.path.join(here, "../rows/address-translator/program.p4")
    print(f"{'command':>8} {'events':>8} {'seconds':>9} {'ratio':>6}")
    with tempfile.TemporaryDirectory() as folder:
        path = os.path.join(folder, "run.sched")
        for command, lengths, schedule, events in (("plain", PACKETS, plain_schedule, 1), ("run", FEEDS, run_schedule, 5)):
            before = None
            for length in lengths:
                with open(path, "w") as out:
                    out.write(schedule(length))
                seconds = min(processor_time([program, command, translator, path]) for _ in range(RUNS))
                ratio = "" if before is None else f"{seconds / before:.2f}"
                print(f"{command:>8} {events * length:>8} {seconds:>9.3f} {ratio:>6}")
                before = seconds


if __name__ == "__main__":
    main()
