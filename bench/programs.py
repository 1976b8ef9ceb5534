#!/usr/bin/env python3
"""Times the program on large P4 programs of many shapes.

Usage: bench/programs.py [PROGRAM [WORD..]]

Each program has close to 262,144 bytes, the most that is read, and one shape: many names, long blocks, thousands of
entries, many actions, many states. PROGRAM is called with the words (`run` without any), the file and a schedule. For
each shape the best processor time of three runs is printed in seconds, with the exit status. Every time should be less
than 0.2 s on a machine that does nothing else.
"""
import os
import resource
import subprocess
import sys
import tempfile

LIMIT = 262144
RUNS = 3
START = "state start { p.extract(h.h); transition accept; }\n"
SCHEDULE = "rp-schedule 1\nswitches 1\nchain 1\nlease 1000 1100\nratio 50\nmode strict\n"


def program(before="", fields="bit<8> x; bit<16> y; bool b;", states=START, local="", body=""):
    """A program with these parts."""
    return (
        f"{before}header h_t {{ bit<8> k; bit<8> i; }}\nstruct hs {{ h_t h; }}\nstruct ms {{ {fields} }}\n"
        f"parser P(packet_in p, out hs h, inout ms m, inout std_t std) {{\n{states}}}\n"
        "control I(inout hs h, inout ms m, inout std_t std) {\nFlowCell<bit<8>>() c;\n"
        f"{local}apply {{\n{body}}}\n}}\n"
        "control D(packet_out p, in hs h) { apply { p.emit(h.h); } }\nRpSwitch(P(), I(), D()) main;\n"
    )


def filled(make, piece):
    """The longest program that `make` builds from the pieces of 0, 1, 2 and so on and that is short enough."""
    pieces, size = [], len(make(""))
    while size + len(piece(len(pieces))) <= LIMIT:
        size += len(piece(len(pieces)))
        pieces.append(piece(len(pieces)))
    return make("".join(pieces))


def table(entries, keys):
    """The declarations of a table with these keys and entries."""
    key = " ".join(f"{path} : {matching};" for path, matching in keys)
    return f"action a() {{ }}\ntable t {{ key = {{ {key} }} actions = {{ a; }} const entries = {{\n{entries}}} }}\n"


def names():
    """Programs of many names."""
    yield "constants", filled(lambda t: program(before=t), lambda i: f"const bit<8> n{i}=1;\n")
    yield "constants, a chain", filled(
        lambda t: program(before="const bit<8> n0=1;\n" + t), lambda i: f"const bit<8> n{i + 1}=n{i}+1;\n"
    )
    yield "long names", filled(lambda t: program(before=t), lambda i: f"const bit<8> {'n' * 200}{i}=1;\n")
    yield "variables", filled(lambda t: program(body=t), lambda i: f"bit<8> n{i}=m.x;\n")
    yield "variables of blocks", filled(lambda t: program(body=t), lambda i: f"{{bit<8> n{i}=m.x;}}\n")
    yield "fields", filled(lambda t: program(fields="bit<8> x;" + t), lambda i: f"bit<8> f{i};\n")
    yield "typedefs", filled(lambda t: program(before=t), lambda i: f"typedef bit<8> t{i};\n")
    yield "structures, a chain", filled(
        lambda t: program(before="struct s0{bit<8> x;}\n" + t), lambda i: f"struct s{i + 1}{{s{i} x;}}\n"
    )


def blocks():
    """Programs of long blocks."""
    yield "assignments", filled(lambda t: program(body=t), lambda i: "m.x=m.x+1;\n")
    yield "ifs", filled(lambda t: program(body=t), lambda i: "if(m.b){m.x=1;}else{m.x=2;}\n")
    yield "sums of literals", filled(lambda t: program(body=t), lambda i: "m.x=((1+2)+(3+(4+5)))+m.x;\n")


def tables():
    """Programs of thousands of entries, and of many actions that write a cell."""
    one, three = [("m.y", "exact")], [("m.y", "exact"), ("m.x", "exact"), ("h.h.k", "exact")]
    wide = "bit<8> x; bit<32> y; bool b;"
    yield "entries", filled(lambda t: program(fields=wide, local=table(t, one)), lambda i: f"{i}:a;\n")
    yield "entries of three", filled(lambda t: program(local=table(t, three)), lambda i: f"({i},{i % 7},1):a;\n")
    yield "prefixes", filled(
        lambda t: program(fields=wide, local=table(t, [("m.y", "lpm")])), lambda i: f"{i}&&&0xffffffff:a;\n"
    )
    count = 6000
    yield "actions with a cell", program(
        local="".join(f"action a{i}(){{c.write(1);}}\n" for i in range(count)),
        body="flow_key(h.h.k);\n" + "".join(f"a{i}();\n" for i in range(count)),
    )


def parsers():
    """Programs of many states."""
    count = 8000
    first = f"state start {{ transition s{count}; }}\n"
    down = "".join(f"state s{i + 1}{{transition s{i};}}\n" for i in range(count))
    yield "states", program(states=first + down + "state s0{transition accept;}\n")
    yield "states, a cycle at the end", program(states=first + down + "state s0{transition s0;}\n")
    yield "states, one cycle", program(states=first + down + f"state s0{{transition s{count};}}\n")
    yield "cases", filled(
        lambda t: program(states=f"state start {{ transition select(m.x) {{\n{t}}} }}\n", fields="bit<32> x; bool b;"),
        lambda i: f"{i}:accept;\n",
    )


def best_time(words):
    """The least processor time of some runs, in seconds, and the exit status."""
    best = None
    for _ in range(RUNS):
        before = resource.getrusage(resource.RUSAGE_CHILDREN)
        status = subprocess.run(words, stdout=subprocess.DEVNULL, stderr=subprocess.DEVNULL).returncode
        after = resource.getrusage(resource.RUSAGE_CHILDREN)
        passed = after.ru_utime + after.ru_stime - before.ru_utime - before.ru_stime
        best = passed if best is None else min(best, passed)
    return best, status


def main():
    here = os.path.dirname(os.path.abspath(__file__))
    called = sys.argv[1] if len(sys.argv) > 1 else os.path.join(here, "../crates/rp_cli/out/rp_cli")
    words = [os.path.abspath(called), *(sys.argv[2:] or ["run"])]
    print(f"{'shape':<28} {'bytes':>8} {'seconds':>8} {'status':>6}")
    with tempfile.TemporaryDirectory() as folder:
        file, schedule = os.path.join(folder, "app.p4"), os.path.join(folder, "x")
        with open(schedule, "w") as out:
            out.write(SCHEDULE)
        for shapes in (names, blocks, tables, parsers):
            for shape, text in shapes():
                with open(file, "w") as out:
                    out.write(text)
                seconds, status = best_time([*words, file, schedule])
                print(f"{shape:<28} {len(text):>8} {seconds:>8.3f} {status:>6}")


if __name__ == "__main__":
    main()
