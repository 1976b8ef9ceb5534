"""A run as its schedule and its report with frames tell it: what came to which node at each event, and what followed.

`tools/picture` draws it and `tools/explain` tells it. Nothing here decides what a node does: that is read off the report's lines.
"""

import dataclasses
import pathlib

HEADER = ("rp-schedule", "switches", "chain", "lease", "ratio", "mode")
KINDS = ("Ask", "Grant", "Busy", "Put", "Ack", "Deny", "Forward", "Have", "Echo", "Config", "Snap")


class Fault(Exception):
    """A schedule or report that can't be read, or that don't belong together."""


# ---- frames


class Reader:
    """The fields of a frame, from its front."""

    def __init__(self, data):
        self.data, self.at = data, 0

    def number(self, size):
        self.at += size
        if self.at > len(self.data):
            raise Fault("a frame ends too early")
        return int.from_bytes(self.data[self.at - size : self.at], "big")

    def numbers(self, *names):
        return {name: self.number(4) for name in names}

    def key(self):
        size = self.number(1)
        self.at += size
        return self.data[self.at - size : self.at].hex()

    def cells(self):
        return [self.number(8) for _ in range(self.number(2))]

    def delta(self):
        return [(self.number(2), self.number(8)) for _ in range(self.number(2))]

    def load(self):
        """The mark of what rides along, or None."""
        if self.number(1) == 0:
            return None
        mark, _, size = self.number(4), self.number(2), self.number(2)
        self.at += size
        return mark

    def entry(self):
        sort = self.number(1)
        key = self.key()
        if sort == 1:
            epoch, owner = self.numbers("epoch"), self.number(1)
            return {"entry": "Grant", "key": key, **epoch, "owner": owner, **self.numbers("inc", "nonce")}
        if sort == 2:
            return {"entry": "Put", "key": key, **self.numbers("epoch", "number"), "delta": self.delta()}
        return {"entry": "Snap", "key": key, **self.numbers("epoch", "number"), "cells": self.cells()}

    def echoed(self):
        if self.number(1) == 1:
            return {"echoed": "Ask", "owner": self.number(1), **self.numbers("inc", "nonce"), "key": self.key()}
        return {"echoed": "Put", "owner": self.number(1), **self.numbers("epoch", "number"), "key": self.key()}


def fields(kind, data):
    """The fields of a frame of version 1, by name. Of what rides along only the mark is kept."""
    if data[:3] != b"RP\x01":
        raise Fault("a frame isn't one of version 1")
    r = Reader(data[6:])
    if kind == "Ask":
        return {**r.numbers("inc", "nonce"), "key": r.key(), "load": r.load()}
    if kind == "Grant":
        return {**r.numbers("inc", "nonce", "epoch"), "key": r.key(), "cells": r.cells(), "load": r.load()}
    if kind == "Busy":
        return {**r.numbers("inc", "nonce"), "key": r.key(), "load": r.number(4) if r.number(1) else None}
    if kind == "Put":
        return {**r.numbers("inc", "epoch", "number"), "key": r.key(), "delta": r.delta(), "load": r.load()}
    if kind == "Ack":
        return {**r.numbers("inc", "epoch", "number"), "key": r.key(), "load": r.load()}
    if kind == "Deny":
        return {**r.numbers("inc", "epoch"), "key": r.key()}
    if kind == "Forward":
        return {**r.numbers("config", "index"), **r.entry(), "load": r.load()}
    if kind == "Have":
        return r.numbers("index")
    if kind == "Echo":
        return {**r.echoed(), "load": r.load()}
    if kind == "Config":
        return {**r.numbers("config"), "chain": [r.number(1) for _ in range(r.number(1))]}
    return {**r.numbers("inc", "epoch", "number"), "key": r.key(), "chunk": r.number(1), "chunks": r.number(1)}


@dataclasses.dataclass
class Frame:
    """A frame that was sent: by whom, to whom, what it says, and at which events it arrived or was dropped."""

    number: int
    event: int
    source: str
    target: str
    kind: str
    says: dict
    arrivals: list = dataclasses.field(default_factory=list)
    dropped: int = 0

    @property
    def key(self):
        return self.says.get("key")

    def label(self):
        """The kind with the number that tells it from others of its kind."""
        says = self.says
        if self.kind in ("Ask", "Busy"):
            return f"{self.kind} {says['nonce']}"
        if self.kind in ("Grant", "Deny"):
            return f"{self.kind} e{says['epoch']}"
        if self.kind == "Snap":
            return f"Snap {says['number']}.{says['chunk']}"
        if self.kind == "Echo":
            return f"Echo {says['echoed']} {says['nonce'] if says['echoed'] == 'Ask' else says['number']}"
        for name in ("index", "number", "config"):
            if name in says:
                return f"{self.kind} {says[name]}"
        return self.kind


# ---- events


@dataclasses.dataclass
class Event:
    """An event: its words, the node that acts, the frame that came, and what the report says of it."""

    number: int
    words: list
    node: str = ""
    frame: object = None
    sent: list = dataclasses.field(default_factory=list)
    released: list = dataclasses.field(default_factory=list)
    dropped: list = dataclasses.field(default_factory=list)
    lost: str = ""
    refused: str = ""

    def keys(self):
        """The flows that the event's frames are of."""
        frames = self.sent + ([self.frame] if self.frame else [])
        return {frame.key for frame in frames if frame.key}


@dataclasses.dataclass
class Lease:
    """A lease at a switch, from the event at which it was granted or renewed to the one at which it ended, or 0."""

    switch: str
    key: str
    epoch: int
    begin: int
    end: int = 0


def schedule_lines(path):
    lines = pathlib.Path(path).read_text(errors="replace").split("\n")
    return [line.split(" ") for line in lines if line and not line.startswith("#")]


class Run:
    """A whole run: `nodes`, `events`, `frames`, `leases` and the lines at the end, `closing`."""

    def __init__(self, schedule, report):
        lines = schedule_lines(schedule)
        if [line[0] for line in lines[:6]] != list(HEADER):
            raise Fault(f"{schedule} doesn't begin with the six lines of a header")
        self.switches, self.replicas = int(lines[1][1]), int(lines[2][1])
        self.t_switch = int(lines[3][1])
        self.nodes = [f"s{n}" for n in range(self.switches)] + [f"r{n}" for n in range(self.replicas)]
        self.events = [Event(n, words) for n, words in enumerate(lines[6:], 1)]
        self.frames, self.closing, self.leases, self.flows = [], [], [], {}
        self.read(pathlib.Path(report).read_text().splitlines(), report)
        self.follow()
        if any(frame.source == "m" for frame in self.frames):
            self.nodes.append("m")

    def read(self, lines, name):
        """Takes each line of the report to its event."""
        for line in lines:
            words = line.split(" ")
            if words[0] in ("serial", "epoch", "cells", "end"):
                self.closing.append(line)
                marks = {"serial": words[2:], "epoch": words[4:]}.get(words[0], [])
                self.flows.update((int(mark), words[1]) for mark in marks)
                continue
            if len(words) < 3 or not 1 <= int(words[1]) <= len(self.events):
                raise Fault(f"{name} has a line that isn't of this schedule: {line[:60]}")
            self.take(self.events[int(words[1]) - 1], words)
        if not self.frames and any(event.words[0] == "next" and not event.refused for event in self.events):
            raise Fault(f"{name} has no frames: write it with --frames")

    def take(self, event, words):
        if words[0] == "send":
            says = fields(words[5], bytes.fromhex(words[6]))
            self.frames.append(Frame(int(words[2]), event.number, words[3], words[4], words[5], says))
            event.sent.append(self.frames[-1])
        elif words[0] == "release":
            event.released.append((int(words[2]), words[3], words[4]))
        elif words[0] == "drop":
            event.dropped.append((int(words[2]), words[3]))
        elif words[0] in ("lost", "refused"):
            setattr(event, words[0], words[2])

    # ---- what came to whom

    def follow(self):
        """Goes through the events: which frame arrives, which node acts, which leases are held."""
        state = State(self)
        for event in self.events:
            if not event.refused:
                state.act(event)
            state.waiting.update((frame.number, frame) for frame in event.sent)
            state.leases(event)

    def flow_of(self, mark):
        """The key of a packet that the lines at the end name, or None."""
        return self.flows.get(mark)


class State:
    """What must be remembered from event to event: who runs, which frames wait, clocks and leases."""

    def __init__(self, run):
        self.run = run
        self.running = {node: True for node in run.nodes}
        self.clocks = {node: 0 for node in run.nodes}
        self.waiting = {}  # the frames that `next` doesn't pass over, by number
        self.slots = {}

    def next_frame(self, event):
        for frame in self.waiting.values():
            if self.running[frame.target]:
                return frame
        raise Fault(f"event {event.number}: no frame is left, though the report doesn't refuse it")

    def fed_at(self, event):
        """The switch that a packet came to: the named one, the sender of what was sent, or the one that holds its flow."""
        if event.words[0] == "feedat":
            return event.words[1]
        if event.sent:
            return event.sent[0].source
        key = self.run.flow_of(event.number)
        holders = [slot.switch for slot in self.slots.values() if slot.key == key and slot.lease]
        return holders[0] if holders else ("s0" if self.run.switches == 1 else "")

    def act(self, event):
        word = event.words[0]
        if word in ("feed", "feedat"):
            event.node = self.fed_at(event)
        elif word in ("next", "deliver"):
            frame = self.next_frame(event) if word == "next" else self.run.frames[int(event.words[1])]
            self.waiting.pop(frame.number, None)
            frame.arrivals.append(event.number)
            event.node, event.frame = frame.target, frame
        elif word == "drop":
            frame = self.run.frames[int(event.words[1])]
            self.waiting.pop(frame.number, None)
            frame.dropped = frame.dropped or event.number
        elif word == "time":
            for node, by in zip(self.clocks, event.words[1:]):
                self.clocks[node] += int(by)
        elif word in ("alarm", "fail", "boot", "detect"):
            event.node = event.words[1]
            if word in ("fail", "boot"):
                self.running[event.node] = word == "boot"
        elif word == "announce":
            event.node = "m"

    # ---- leases, by the frames alone

    def leases(self, event):
        """Follows the leases of all slots over one event."""
        for slot in self.slots.values():
            if slot.lease and slot.expiry <= self.clocks[slot.switch]:
                slot.ends(event)
        if event.words[0] == "fail" and not event.refused:
            for slot in [s for s in self.slots.values() if s.switch == event.node]:
                slot.ends(event)
                del self.slots[slot.switch, slot.key]
        if event.frame and event.node.startswith("s") and event.frame.key and not event.lost:
            slot = self.slots.get((event.node, event.frame.key))
            if slot:
                slot.heard(event.frame, self.clocks[event.node], event)
        for frame in event.sent:
            if frame.source.startswith("s") and frame.key:
                new = Slot(self.run, frame.source, frame.key)
                self.slots.setdefault((frame.source, frame.key), new).said(frame, self.clocks[frame.source], event)


class Slot:
    """A flow at a switch, as far as its lease goes: the Ask that is out, and the requests that can extend it."""

    def __init__(self, run, switch, key):
        self.run, self.switch, self.key = run, switch, key
        self.nonce, self.first, self.epoch, self.expiry = 0, 0, 0, 0
        self.requests, self.lease = {}, None

    def begins(self, event):
        if self.lease is None:
            self.lease = Lease(self.switch, self.key, self.epoch, event.number)
            self.run.leases.append(self.lease)

    def ends(self, event):
        if self.lease is not None:
            self.lease.end, self.lease = event.number, None

    def said(self, frame, now, event):
        if frame.kind == "Ask" and frame.says["nonce"] != self.nonce:
            self.ends(event)
            self.nonce, self.first, self.epoch, self.requests = frame.says["nonce"], now, 0, {}
        elif frame.kind in ("Put", "Snap"):
            self.requests.setdefault(frame.says["number"], now)

    def heard(self, frame, now, event):
        if frame.kind == "Grant" and not self.epoch and frame.says["nonce"] == self.nonce:
            if now < self.first + self.run.t_switch:
                self.epoch, self.expiry = frame.says["epoch"], self.first + self.run.t_switch
                self.begins(event)
        elif frame.kind == "Ack" and frame.says["epoch"] == self.epoch:
            covered = [n for n in self.requests if n <= frame.says["number"]]
            if covered:
                end = self.requests[max(covered)] + self.run.t_switch
                self.requests = {n: at for n, at in self.requests.items() if n not in covered}
                self.extend(end, now, event)
        elif frame.kind == "Deny" and frame.says["epoch"] == self.epoch:
            self.ends(event)
            self.epoch = 0

    def extend(self, end, now, event):
        if self.lease is not None:
            self.expiry = max(self.expiry, end)
        elif now < end:
            self.expiry = end
            self.begins(event)


def spoken(key):
    """A key in hex, with its letters where it has nothing else."""
    data = bytes.fromhex(key)
    return f"{key} ({data.decode()})" if data.isascii() and data.decode().isprintable() else key


def chosen_events(run, events, flows):
    """The events that are asked for: within a span `A-B`, and of flows where some are named."""
    first, last = 1, len(run.events)
    if events:
        first, _, end = events.partition("-")
        first, last = int(first), int(end or first)
    inside = [event for event in run.events if first <= event.number <= last]
    if not flows:
        return inside
    return [event for event in inside if event.keys() & flows or event.words[0] in ("fail", "boot", "time")]
