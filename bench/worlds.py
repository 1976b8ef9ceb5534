#!/usr/bin/env python3
"""Times the program on whole worlds: several switches, chains, losses, clocks, alarms and failures.

Usage: bench/worlds.py [PROGRAM] [SHAPE..]

Each shape is timed at half of its events and at all of them. Printed are the least processor time of five runs, its ratio to
that of half the events (about 2.0 where the time grows as the run does) and the most memory that a run held.
"""
import os
import subprocess
import sys
import tempfile

RUNS = 5
EVENTS = 20000


def header(switches, chain, mode="strict", lease="1000 1100"):
    return f"rp-schedule 1\nswitches {switches}\nchain {chain}\nlease {lease}\nratio 50\nmode {mode}\n"


def draws(seed):
    """An endless list of numbers below 2^31, the same for the same seed."""
    x = seed
    while True:
        x = (x * 1103515245 + 12345) % (1 << 31)
        yield x >> 8


def mixture(events, switches, chain, flows):
    """Feeds, deliveries, drops, alarms, times and failures with their repairs, in fixed shares."""
    rest = draws(7)
    nodes = [f"s{n}" for n in range(switches)] + [f"r{n}" for n in range(chain)]
    lines, down = [], []
    while len(lines) < events:
        share, pick = next(rest) % 100, next(rest)
        if share < 9:
            key = pick % flows
            lines.append(f"feed {pick % 8} {key % 256:02x}{key // 256:02x}21")
        elif share < 84:
            lines.append("next")
        elif share < 87:
            lines.append(f"deliver {pick % max(1, len(lines))}")
        elif share < 89:
            lines.append(f"drop {pick % max(1, len(lines))}")
        elif share < 94:
            lines.append(f"alarm {nodes[pick % len(nodes)]}")
        elif share < 98:
            lines.append("time" + " 40" * len(nodes))
        elif down:
            node = down.pop()
            lines += [f"boot {node}", f"detect {node}"]
        else:
            node = f"s{pick % switches}"
            down.append(node)
            lines += [f"fail {node}", f"detect {node}"]
    return lines[:events]


def frames(events):
    """A thousand Puts whose Acks are lost, and alarms that send all of them again: 65,536 frames."""
    lines = ["feed 1 6121", "next", "next"] + ["feed 1 6121"] * 1000
    while len(lines) < events:
        lines += ["time 40 40", "alarm s0"] * 8 + ["next"]
    return lines[:events]


def waiting(events):
    """Frames wait for a switch that has failed, and the others go on."""
    lines = ["feedat s0 1 6121", "next", "next"] + ["feedat s0 1 6121"] * (events // 25)
    lines += ["time 40 40 40", "alarm s0"] * (events // 2000) + ["fail s0"] + ["next"] * (events // 3) + ["detect s0"]
    while len(lines) < events:
        lines += ["feedat s1 1 6221", "next", "next", "next", "next"]
    return lines[:events]


def epochs(events):
    """One flow whose switch begins again and again: an epoch for every few events."""
    lines = []
    while len(lines) < events:
        lines += ["feed 1 6121", "next", "next", "next", "next", "fail s0", "boot s0"]
    return lines[:events]


SHAPES = {
    "mixture": lambda n: header(3, 3) + "\n".join(mixture(n, 3, 3, 8)) + "\n",
    "wide": lambda n: header(8, 5) + "\n".join(mixture(n, 8, 5, 1024)) + "\n",
    "snapshots": lambda n: header(3, 3, "snapshot 500") + "\n".join(mixture(n, 3, 3, 8)) + "\n",
    "frames": lambda n: header(1, 1) + "\n".join(frames(n)) + "\n",
    "waiting": lambda n: header(2, 1) + "\n".join(waiting(n)) + "\n",
    "epochs": lambda n: header(1, 1) + "\n".join(epochs(n)) + "\n",
}


def run(program, path):
    """The processor seconds of one run, its greatest memory in MB, and what it wrote."""
    ran = subprocess.Popen([program, "run", "@count", path], stdout=subprocess.PIPE)
    out = ran.stdout.read()
    _, status, usage = os.wait4(ran.pid, 0)
    if status != 0:
        sys.exit(f"the program ended with status {os.waitstatus_to_exitcode(status)}")
    return usage.ru_utime + usage.ru_stime, usage.ru_maxrss / 1024, out


def best(program, text):
    with tempfile.TemporaryDirectory() as folder:
        path = os.path.join(folder, "run.sched")
        with open(path, "w") as out:
            out.write(text)
        ran = [run(program, path) for _ in range(RUNS)]
    return min(r[0] for r in ran), max(r[1] for r in ran), ran[0][2].count(b"\n")


def main():
    here = os.path.dirname(os.path.abspath(__file__))
    words = sys.argv[1:]
    program = words.pop(0) if words else os.path.join(here, "../crates/rp_cli/out/rp_cli")
    program = os.path.abspath(program)
    print(f"{'shape':>10} {'events':>7} {'lines':>7} {'seconds':>8} {'ratio':>6} {'MB':>6}")
    for name in words or SHAPES:
        half, _, _ = best(program, SHAPES[name](EVENTS // 2))
        whole, memory, lines = best(program, SHAPES[name](EVENTS))
        print(f"{name:>10} {EVENTS:>7} {lines:>7} {whole:>8.3f} {whole / max(half, 0.001):>6.2f} {memory:>6.1f}")


if __name__ == "__main__":
    main()
