#!/usr/bin/env python3
"""Runs the program at each of its limits and past it, and over texts of sizes n, 2n and 4n: bench/limits.py [PROGRAM] [--divide K] [--only NAME] [--edges | --growth]

PROGRAM is the built program, by itself the one that ./run builds. First come the edges: for each limit a text that reaches it, which has to be accepted, and one that is
past it by one, which has to be refused with the message of that limit; each with its processor time and the most memory that it held. Then short texts that spell much.
Then the growth: the processor time over texts of three sizes, from which that of an empty module is taken off. A quantity whose time grows by more than a factor of 9 from
n to 4n (a linear one grows by 4, a quadratic one by 16) is wrong, where the last time is over a tenth of a second; the last three rows, whose texts spell n times n parts or ask for
n pieces of work of length n, aren't judged. --divide K divides the sizes of the growth by K, for a slow build or machine; --only NAME takes the rows whose name has NAME in it.
A run that takes over 10 minutes of processor time is ended. The status is 1 where a row was wrong.
"""
import argparse
import os
import re
import resource
import subprocess
import sys
import tempfile

HOME = os.path.dirname(os.path.dirname(os.path.abspath(__file__)))
MOST_SECONDS = 600
MOST_GROWTH = 9
PLAN = "end 20\nwatch q\nstrobe 15\nfault q 0\n"


def top(*items):
    return "module top;\n" + "\n".join(items) + "\nendmodule\n"


def numbered(count, form):
    """`form` for each number below `count`, with the number for I."""
    return [form.replace("I", str(number)) for number in range(count)]


def hierarchy(count, inner, extra=""):
    """`count` times the items `inner`, a multiple of 64, in 64 instances, and the items `extra` in the top."""
    return top(*numbered(64, "leaf lI();"), extra) + "module leaf;\n" + "\n".join([inner] * (count // 64)) + "\nendmodule\n"


def chain_of_modules(depth):
    return top("m1 a();") + "".join(f"module m{at};\nm{at + 1} a();\nendmodule\n" for at in range(1, depth)) + f"module m{depth};\nendmodule\n"


def doubled(depth):
    """Modules of which each has two instances of the next."""
    return top("m1 a(), b();") + "".join(f"module m{at};\nm{at + 1} a(), b();\nendmodule\n" for at in range(1, depth)) + f"module m{depth};\nendmodule\n"


def filled(text, size):
    """The text with blanks up to this size."""
    return text + " " * (size - len(text))


def gates_backwards(count):
    return top("reg a;", *[f"wire w{at};\nnot(w{at}, w{at + 1});" for at in range(count - 1)], f"wire w{count - 1};\nnot(w{count - 1}, a);")


def parameters_backwards(count, form):
    """Parameters of which each rests on the next; N stands in `form` for the name of that one."""
    return top(*[f"localparam p{at} = {form.replace('N', f'p{at + 1}')};" for at in range(count)], f"localparam p{count} = 1;", "reg [p0 & 3:0] q;")


def long_range(count, *last):
    """A range whose first bound is a sum of as many times `a`, and of the names in `last`."""
    return f"[{balanced_sum(['a'] * count + list(last))}:0]"


def balanced_sum(names):
    """A sum of names whose parentheses are nested as little as may be."""
    half = len(names) // 2
    return f"({balanced_sum(names[:half])} + {balanced_sum(names[half:])})" if half else names[0]


def sizes(objects, nodes=0, processes=0):
    return f"objects {objects} nodes {nodes} processes {processes}\n"


def refused(message):
    return 1, f"vfault: {message}\n"


def graded(design, plan):
    return ["grade", "design", "plan", "top", "1"], design, plan


def checked(design, name="top"):
    return ["check", "design", name], design, ""


TOTAL = "total {0} detected 0 possible 0 undetected {0} race 0 hyper 0\n"
REG_Q = top("reg q;", "initial begin q = 0; #10 q = 1; end")
# Each row: what is limited, a run at the limit with what it writes in the end, and one past it with its status and message.
EDGES = [
    ("levels: parentheses", checked(top("wire y, a; assign y = " + "(" * 255 + "a" + ")" * 255 + ";")), sizes(2, 1),
     checked(top("wire y, a; assign y = " + "(" * 256 + "a" + ")" * 256 + ";")), refused("design 2:278: too deep")),
    ("levels: blocks", checked(top("reg q; initial " + "begin " * 254 + "q = 1;" + " end" * 254)), sizes(1, 0, 1),
     checked(top("reg q; initial " + "begin " * 255 + "q = 1;" + " end" * 255)), refused("design 2:1546: too deep")),
    ("bytes of a design", checked(filled(REG_Q, 1048576)), sizes(1, 0, 1), checked(filled(REG_Q, 1048577)), (7, "vfault: the design is too long\n")),
    ("bytes of a plan", graded(REG_Q, PLAN + "#" * (262144 - len(PLAN))), TOTAL.format(1).replace("detected 0", "detected 1", 1).replace("undetected 1", "undetected 0"),
     graded(REG_Q, PLAN + "#" * (262145 - len(PLAN))), (7, "vfault: the plan is too long\n")),
    ("bits", checked(top("reg [127:0] q;")), sizes(1), checked(top("reg [128:0] q;")), refused("design 2:5: bad width")),
    ("bounds of a range", checked(top("reg [65536:65535] q;")), sizes(1), checked(top("reg [65537:65536] q;")), refused("design 2:6: not a constant")),
    ("bounds of a memory", checked(top("reg q [1048575:1048570];")), sizes(6), checked(top("reg q [1048576:1048570];")), refused("design 2:8: not a constant")),
    ("numbers: plain", checked(top("reg [31:0] q = 4294967295;")), sizes(1), checked(top("reg [31:0] q = 4294967296;")), refused("design 2:16: bad number")),
    ("numbers: size", checked(top("reg [31:0] q = 128'd1;")), sizes(1), checked(top("reg [31:0] q = 129'd1;")), refused("design 2:16: bad number")),
    ("numbers: digits", checked(top("reg [31:0] q = 128'h" + "f" * 64 + ";")), sizes(1), checked(top("reg [31:0] q = 128'h" + "f" * 65 + ";")), refused("design 2:16: bad number")),
    ("objects", checked(top("reg [7:0] m [0:65534]; reg q;")), sizes(65536), checked(top("reg [7:0] m [0:65535]; reg q;")), refused("design: too many objects (65537)")),
    ("nodes", checked(hierarchy(65536, "always @* ;")), sizes(0, 65536), checked(hierarchy(65536, "always @* ;", "always @* ;")), refused("design: too many nodes (65537)")),
    ("processes", checked(hierarchy(65536, "initial ;")), sizes(0, 0, 65536), checked(hierarchy(65536, "initial ;", "initial ;")), refused("design: too many processes (65537)")),
    ("instances", checked(top(*numbered(256, "m iI();")) + "module m;\n" + "\n".join(numbered(255, "n iI();")) + "\nendmodule\nmodule n;\nendmodule\n"), sizes(0),
     checked(top(*numbered(256, "m iI();"), "n i();") + "module m;\n" + "\n".join(numbered(255, "n iI();")) + "\nendmodule\nmodule n;\nendmodule\n"),
     refused("design: too many instances (65537)")),
    ("depth of instances", checked(chain_of_modules(64)), sizes(0), checked(chain_of_modules(65)), refused("design 194:5: too deep")),
    ("inputs of a node: words", checked(top("reg m [0:4094]; reg [11:0] i; wire y; assign y = m[i];")), sizes(4097, 1),
     checked(top("reg m [0:4095]; reg [11:0] i; wire y; assign y = m[i];")), refused("design: too many inputs (4097)")),
    ("inputs of a node: terminals", checked(top("wire y;", *numbered(4096, "reg rI;"), "and(y, " + ", ".join(numbered(4096, "rI")) + ");")), sizes(4097, 1),
     checked(top("wire y;", *numbered(4097, "reg rI;"), "and(y, " + ", ".join(numbered(4097, "rI")) + ");")), refused("design: too many inputs (4097)")),
    ("a name", checked("module top; reg " + "q" * 1048548 + "; endmodule"), sizes(1), checked("module top; reg " + "q" * 1048550 + "; endmodule"), (7, "vfault: the design is too long\n")),
    ("the end", graded(REG_Q, PLAN.replace("end 20", "end 1000000000000")), None, graded(REG_Q, PLAN.replace("end 20", "end 1000000000001")), refused("plan 1: bad line")),
    ("strobes", graded(REG_Q, "end 65535\nwatch q\nstrobe 0 1 65535\nfault q 1\n"), None, graded(REG_Q, "end 65535\nwatch q\nstrobe 0 1 65535\nstrobe 0\nfault q 1\n"), refused("plan 4: too many")),
    ("watched bits", graded(top("reg [127:0] q;"), "end 0\n" + "watch q\n" * 32 + "fault q[0] 1\n"), TOTAL.format(1),
     graded(top("reg [127:0] q;"), "end 0\n" + "watch q\n" * 33), refused("plan 34: too many")),
    ("faults", graded(top("reg a, b;"), "end 0\n" + "faults all\n" * 16384), TOTAL.format(65536), graded(top("reg a, b;"), "end 0\n" + "faults all\n" * 16385), refused("plan 16386: too many")),
    ("steps of a slot", graded(top("reg q;", "initial repeat (99997) ;"), PLAN), None, graded(top("reg q;", "initial repeat (99998) ;"), PLAN), (6, "vfault: the good machine loops at time 0\n")),
    ("workers", (["soak", "1", "40", "64"], "", ""), None, (["soak", "1", "40", "65"], "", ""), None),
]
# Each row: what grows, the least of the three sizes, and the run for a size.
GROWTH = [
    ("statements, check", 32000, lambda n: checked(top("reg q;", "initial begin", *["q = 1;"] * n, "end"))),
    ("tokens on one line, check", 32000, lambda n: checked("module top; reg q; initial begin " + "q = 1; " * n + "end endmodule")),
    ("blanks on one line, check", 260000, lambda n: checked("module top;" + " " * n + "endmodule")),
    ("bytes of a comment, check", 260000, lambda n: checked("module top; /*" + "*" * n + "*/ endmodule")),
    ("bytes of a string, check", 260000, lambda n: checked('module top; initial $display("' + "a" * n + '"); endmodule')),
    ("zeros before a number, check", 260000, lambda n: checked("module top; reg q = " + "0" * n + "1; endmodule")),
    ("bytes of a name, check", 260000, lambda n: checked("module top; reg " + "q" * n + "; endmodule")),
    ("bytes of a name, faults", 260000, lambda n: (["faults", "design", "top"], "module top; reg " + "q" * n + "; endmodule", "")),
    ("names that begin alike, check", 2048, lambda n: checked(top(*numbered(n, "reg " + "a" * 100 + "I;")))),
    ("variables, check", 16384, lambda n: checked(top(*numbered(n, "reg rI;")))),
    ("variables, faults", 16384, lambda n: (["faults", "design", "top"], top(*numbered(n, "reg rI;")), "")),
    ("words of a memory, check", 16384, lambda n: checked(top(f"reg [7:0] m [1:{n}];"))),
    ("parameters, each of the next, check", 5000, lambda n: checked(parameters_backwards(n, "N + 1"))),
    ("parameters, each twice of the next, check", 5000, lambda n: checked(parameters_backwards(n, "N + N"))),
    ("names of one range of as many operands, check", 2048, lambda n: checked(top("localparam a = 0;", f"wire {long_range(n)} " + ", ".join(numbered(n, "wI")) + ";"))),
    ("ports of one range of as many operands, twice, check", 1024, lambda n: checked(
        "module m(" + ", ".join(numbered(n, "iI")) + ");\nlocalparam a = 0;\n" + "".join(f"{kind} {long_range(n)} " + ", ".join(numbered(n, "iI")) + ";\n" for kind in ("input", "wire"))
        + "endmodule\n" + top(*numbered(n, "wire wI;"), "m a(" + ", ".join(numbered(n, "wI")) + ");"))),
    ("parameters of one range of as many operands, check", 2048, lambda n: checked(top("localparam a = 0;", f"localparam {long_range(n)} " + ", ".join(numbered(n, "pI = 1")) + ";"))),
    ("parameters of a range of later ones, each of one that waits, check", 2048, lambda n: checked(top(
        f"localparam {long_range(n)} " + ", ".join(numbered(n, "pI = qI")) + ";", *[f"localparam q{at} = q{at + 1};" for at in range(n - 1)], f"localparam q{n - 1} = 1;", "localparam a = 0;"))),
    ("gates, each of the next, check", 6144, lambda n: checked(gates_backwards(n))),
    ("gates, each of the next, faults", 6144, lambda n: (["faults", "design", "top"], gates_backwards(n), "")),
    ("gates of one name, check", 8192, lambda n: checked(top("reg a;", *numbered(n, "wire wI; buf(wI, a);")))),
    ("drivers of bits, check", 8192, lambda n: checked(top("reg a;", *[f"wire [127:0] v{at};\n" + "\n".join(f"assign v{at}[{bit}] = a;" for bit in range(128)) for at in range(n // 128)]))),
    ("inputs of a gate, check", 1024, lambda n: checked(top("wire y;", *numbered(n, "reg rI;"), "and(y, " + ", ".join(numbered(n, "rI")) + ");"))),
    ("ports, check", 4096, lambda n: checked("module m(" + ", ".join(numbered(n, "input iI")) + "); endmodule\n"
                                                 + top(*numbered(n, "wire wI;"), "m a(" + ", ".join(numbered(n, "wI")) + ");"))),
    ("names of a connection, check", 2048, lambda n: checked("module m(" + ", ".join(numbered(n, "input iI")) + "); endmodule\n"
                                                          + top(*numbered(n, "wire wI;"), "m a(" + ", ".join(reversed(numbered(n, ".iI(wI)"))) + ");"))),
    ("modules, check", 8192, lambda n: checked(top("m0 a();") + "".join(numbered(n, "module mI; endmodule\n")))),
    ("instances, check", 8192, lambda n: checked(top(*numbered(n, "m iI();")) + "module m;\nreg q;\nendmodule\n")),
    ("processes, check", 16384, lambda n: checked(top("reg q;", *["initial q = 1;"] * n))),
    ("processes of one event, grade", 512, lambda n: graded(top("reg q;", *numbered(n, "reg rI; always @(q) rI = q;"), "initial begin q = 0; #10 q = 1; end"), PLAN)),
    ("names of one list of events, check", 1024, lambda n: checked(top("reg q;", *numbered(n, "reg rI;"), "always @(" + " or ".join(numbered(n, "rI")) + ") q <= 1;"))),
    ("names of one block, check", 1024, lambda n: checked(top(*numbered(n, "reg rI;"), "reg q;", "always @* begin", "q = 0;", *numbered(n, "if (rI) q = 1;"), "end"))),
    ("alternatives of a case, grade", 4096, lambda n: graded(top("reg q; reg [15:0] s = 3;", "initial case (s)", *numbered(n, "I: q = 1;"), "endcase"), PLAN)),
    ("lines of a plan, grade", 5000, lambda n: graded(REG_Q, PLAN + "fault q 1\n" * n)),
    ("listed faults, grade", 16384, lambda n: graded(top("reg a, b;"), "end 0\n" + "faults all\n" * (n // 4))),
    ("strobes, grade", 16384, lambda n: graded(REG_Q, f"end {n}\nwatch q\nstrobe 1 1 {n}\nfault q 1\n")),
    ("watched bits, grade", 1024, lambda n: graded(top("reg [127:0] q; initial q = 0;"), "end 9\n" + "watch q\n" * (n // 128) + "strobe 1 1 9\nfault q[0] 1\n")),
    ("steps of a slot, grade", 24000, lambda n: graded(top("reg q;", f"initial repeat ({n}) ;"), PLAN)),
    ("writes of a slot, grade", 8000, lambda n: graded(top("reg q;", f"initial repeat ({n}) q = ~q;"), PLAN)),
    ("updates of a slot, grade", 8000, lambda n: graded(top("reg q;", f"initial repeat ({n}) q <= 1;"), PLAN)),
    ("slots, grade", 4000, lambda n: graded(top("reg q = 0;", "always #1 q = ~q;"), PLAN.replace("end 20", f"end {n}"))),
]
# As GROWTH, of texts that are refused: with the message. Their parameter z rests on itself, so what names it never has a value.
REFUSED_GROWTH = [
    ("ports of two ranges that wait, of as many operands, check", 1024, lambda n: checked(
        "module top(" + ", ".join(numbered(n, "iI")) + ");\nparameter z = z; localparam a = 0;\n"
        + "".join(f"{kind} {long_range(n, 'z')} " + ", ".join(numbered(n, "iI")) + ";\n" for kind in ("input", "wire")) + "endmodule\n"), refused("design 2:15: not a constant")),
    ("parameters of a range that waits, each of one that gets its value, check", 2048, lambda n: checked(top(
        "parameter z = z;", f"localparam {long_range(n, 'z')} " + ", ".join(numbered(n, "pI = qI")) + ";", *[f"localparam q{at} = q{at + 1};" for at in range(n - 1)], f"localparam q{n - 1} = 1;",
        "localparam a = 0;")), refused("design 2:15: not a constant")),
    ("parameters of a range that waits for a long name, check", 4000, lambda n: checked(top(
        "parameter " + "z" * 16 * n, "= " + "z" * 16 * n + ";", f"localparam [{'z' * 16 * n}:0] " + ", ".join(numbered(n, "pI = 1")) + ";")), refused("design 3:3: not a constant")),
]
# As GROWTH, of texts in which a module of n parts has n instances or a gate of n inputs as many faults, so that what they spell or ask for grows by 16: told, and not judged.
PRODUCTS = [
    ("inputs of a gate, grade", 256, lambda n: graded(top("wire q;", *numbered(n, "reg rI = 1;"), "and(q, " + ", ".join(numbered(n, "rI")) + ");"), PLAN.replace("fault q 0", "faults all"))),
    ("statements of each of as many instances, check", 128, lambda n: checked(top(*numbered(n, "m iI();")) + "module m;\nreg q;\ninitial begin\n" + "q = 1;\n" * n + "end\nendmodule\n")),
    ("parameters of each of as many instances, check", 128, lambda n: checked(top(*numbered(n, "m iI();")) + "module m;\n" + "\n".join(numbered(n, "parameter pI = 1;")) + "\nendmodule\n")),
]
# Texts that would take years where a part of them were worked out once for each of its uses: the run, with the status and the message.
SHORT_TEXTS = [
    ("modules that double, 64 deep", checked(doubled(64)), refused("design: too many instances (65537)")),
    ("a module of itself", checked(top("top a();")), refused("design 2:5: too deep")),
    ("two of itself", checked(top("top a(), b();")), refused("design 2:5: too deep")),
    ("sums of sums", checked(parameters_backwards(200, "N + N")), (0, "")),
    ("comparisons in comparisons", checked(top("wire y, a; assign y = " + "(a == " * 120 + "a" + ")" * 120 + ";")), (0, "")),
    ("conditions in conditions", checked(top("wire y, a; assign y = " + "(a ? a : " * 120 + "a" + ")" * 120 + ";")), (0, "")),
    ("conditions of conditions", checked(top("wire y, a; assign y = " + "(" * 120 + "a" + " ? a : a)" * 120 + ";")), (0, "")),
    ("an index in an index", checked(top("wire y; reg a; reg [1:0] v; assign y = " + "v[" * 120 + "a" + "]" * 120 + ";")), (0, "")),
    ("a choice in a choice", checked(top("reg y, a; always @* begin y = 0; " + "if (a) y = a; else begin " * 80 + "end " * 80 + "end")), (0, "")),
    ("choices after choices", checked(top("reg y, a; always @* begin " + "if (a) y = 0; else y = a; " * 400 + "end")), (0, "")),
    ("a case in a case", checked(top("reg y, a; always @* begin y = 0; " + "case (a) 0: y = a; default: " * 80 + "; " + "endcase " * 80 + "end")), (0, "")),
    ("a repetition of 65,536", checked(top("wire y; assign y = {65536{1'b1}};")), refused("design 2:20: bad width")),
]


class Run:
    """A run: its status, its output and message, its processor time and the most memory that it held."""

    def __init__(self, program, words, design, plan):
        with tempfile.TemporaryDirectory() as folder:
            for name, text in (("design", design), ("plan", plan)):
                with open(f"{folder}/{name}", "w", encoding="ascii") as file:
                    file.write(text)
            with open(f"{folder}/out", "wb+") as out, open(f"{folder}/err", "wb+") as err:
                process = subprocess.Popen([program] + words, cwd=folder, stdout=out, stderr=err,
                                           preexec_fn=lambda: resource.setrlimit(resource.RLIMIT_CPU, (MOST_SECONDS, MOST_SECONDS)))
                _, status, used = os.wait4(process.pid, 0)
                process.returncode = os.waitstatus_to_exitcode(status)
                out.seek(0)
                err.seek(0)
                self.output, self.message = out.read().decode("latin-1"), err.read().decode("latin-1")
        self.status, self.seconds, self.megabytes = process.returncode, used.ru_utime + used.ru_stime, used.ru_maxrss / 1024

    def cost(self):
        return f"{self.seconds:.2f} s, {self.megabytes:.0f} MB"

    def end(self):
        return f"status {self.status} {self.message[:100]!r}"


def try_edge(program, row):
    name, at, output, past, wanted = row
    first, second = Run(program, *at), Run(program, *past)
    right = True
    if first.status or (output is not None and not first.output.endswith(output)):
        right = False
        print(f"{name}: at the limit {first.end()}, the last line is {first.output[-100:]!r}")
    if (second.status, second.message) != wanted if wanted else second.status != 2:
        right = False
        print(f"{name}: past the limit {second.end()}, wanted {wanted}")
    print(f"| {name} | {first.cost()} | {second.cost()} |", flush=True)
    return right


def try_short(program, row):
    name, run, wanted = row
    done = Run(program, *run)
    right = (done.status, done.message) == wanted
    if not right:
        print(f"{name}: {done.end()}, wanted {wanted}")
    if done.seconds > 10:
        right = False
        print(f"{name}: took {done.seconds:.1f} s")
    print(f"| {name} | {done.cost()} |", flush=True)
    return right


def try_growth(program, row, divide, start, wanted=(0, ""), most_growth=MOST_GROWTH):
    name, least, make = row
    counts = [max(least // divide, 1) * factor for factor in (1, 2, 4)]
    runs = [Run(program, *make(count)) for count in counts]
    failed = next((f"{count}: {run.end()}" for count, run in zip(counts, runs) if (run.status, run.message) != wanted), None)
    if failed:
        print(f"{name}, {failed}")
    first, second, last = (max(run.seconds - start, 0.001) for run in runs)
    grown = last / first
    print(f"| {name} | {counts[0]:,} | {first:.3f} s | {second / first:.1f} | {grown:.1f} | {runs[2].megabytes:.0f} MB |", flush=True)
    if last > 0.1 and grown > most_growth:
        print(f"{name}: {counts[2]:,} take {grown:.1f} times as long as {counts[0]:,}")
        return False
    return not failed


def words_of_command_line():
    parser = argparse.ArgumentParser(description=__doc__, formatter_class=argparse.RawDescriptionHelpFormatter)
    parser.add_argument("program", nargs="?", default=f"{HOME}/crates/vfault/out/vfault", metavar="PROGRAM")
    parser.add_argument("--divide", type=int, default=1, metavar="K")
    parser.add_argument("--only", default="", metavar="NAME")
    parser.add_argument("--edges", action="store_true", help="the limits alone")
    parser.add_argument("--growth", action="store_true", help="the sizes n, 2n and 4n alone")
    return parser.parse_args()


def main():
    given = words_of_command_line()
    program = os.path.realpath(given.program)
    chosen = re.compile(re.escape(given.only))
    right = []
    start = min(Run(program, *checked("module top; endmodule")).seconds for _ in range(3))
    print(f"A module of nothing takes {start:.3f} s; the machine's load is {os.getloadavg()[0]:.0f}.")
    if not given.growth:
        print("\n| limit | at it | past it by one |\n|---|---|---|")
        right += [try_edge(program, row) for row in EDGES if chosen.search(row[0])]
        print("\n| short text | |\n|---|---|")
        right += [try_short(program, row) for row in SHORT_TEXTS if chosen.search(row[0])]
    if not given.edges:
        print("\n| what grows | n | time of n | of 2n by n | of 4n by n | memory of 4n |\n|---|---|---|---|---|---|")
        right += [try_growth(program, row, given.divide, start) for row in GROWTH if chosen.search(row[0])]
        right += [try_growth(program, row, given.divide, start, wanted) for *row, wanted in REFUSED_GROWTH if chosen.search(row[0])]
        right += [try_growth(program, row, given.divide, start, most_growth=float("inf")) for row in PRODUCTS if chosen.search(row[0])]
    print(f"\nlimits: {right.count(True)} right, {right.count(False)} wrong")
    return 0 if all(right) else 1


if __name__ == "__main__":
    sys.exit(main())
