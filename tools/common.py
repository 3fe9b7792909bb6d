"""What the tools share: how they stop, how they find the program, and how they read a report and a plan."""
import os
import re
import shutil
import subprocess
import sys
from collections import namedtuple

HERE = os.path.dirname(os.path.realpath(__file__))
TOOL = os.path.basename(sys.argv[0])
KINDS = ("detected", "possible", "undetected", "race", "hyper")
TOTAL = re.compile(r"total (\d+) detected (\d+) possible (\d+) undetected (\d+) race (\d+) hyper (\d+)")
FAULT = re.compile(
    r"(?P<site>\S+) sa(?P<value>[01]) (?:"
    r"(?P<timed>detected|possible|hyper) (?P<time>\d+)"
    r"|(?P<undetected>undetected)"
    r"|race (?P<side>good|faulty) (?P<at>\d+)\.(?P<phase>\d+) (?P<first>\S+ \S+ p\d+ l\d+) (?P<second>\S+ \S+ p\d+ l\d+))"
)

Access = namedtuple("Access", "kind object process line")
# One fault of a report. `time` is None where the fault is undetected; side, phase and the accesses are of races alone.
Fault = namedtuple("Fault", "site value verdict time side phase first second text")
Report = namedtuple("Report", "faults totals")


def stop(words, status=1):
    """Ends the tool with one line on standard error."""
    print(f"{TOOL}: {words}", file=sys.stderr)
    sys.exit(status)


def tell(words):
    """Says something beside the output."""
    print(f"{TOOL}: {words}", file=sys.stderr)


def read_text(name):
    """The text of a file, `-` being standard input."""
    try:
        if name == "-":
            return sys.stdin.buffer.read().decode("utf-8", "surrogateescape")
        with open(name, "rb") as file:
            return file.read().decode("utf-8", "surrogateescape")
    except OSError as error:
        stop(f"cannot read {name}: {error.strerror}", 3)


def write_text(text):
    """Puts the whole output of a tool to standard output."""
    try:
        sys.stdout.buffer.write(text.encode("utf-8", "surrogateescape"))
        sys.stdout.buffer.flush()
    except OSError as error:
        os.close(1)
        stop(f"cannot write: {error.strerror}", 4)


def find_program(given=None, wanted=True):
    """The path of vfault: what was given, the environment's VFAULT, the repository's, or the one on the PATH."""
    given = given or os.environ.get("VFAULT")
    if given:
        found = shutil.which(given)
        if found:
            return os.path.abspath(found)
        stop(f"no program at {given}", 3)
    built = os.path.join(HERE, "..", "crates", "vfault", "out", "vfault")
    if os.access(built, os.X_OK):
        return os.path.abspath(built)
    found = shutil.which("vfault")
    if found or not wanted:
        return found
    stop("no program vfault: build it (./run), or give its path by --program or in the environment's VFAULT", 3)


def run_program(program, words):
    """Runs vfault and gives its output; where it ends otherwise, hands on its line and its status."""
    ran = subprocess.run([program, *words], stdout=subprocess.PIPE, stderr=subprocess.PIPE, check=False)
    if ran.returncode:
        said = ran.stderr.decode("utf-8", "replace").strip() or f"{program} was ended by signal {-ran.returncode}"
        stop(said, ran.returncode if 0 < ran.returncode < 126 else 1)
    return ran.stdout.decode("utf-8", "surrogateescape")


def access_of(words):
    kind, name, process, line = words.split(" ")
    return Access(kind, name, int(process[1:]), int(line[1:]))


def fault_of(text):
    """The fault that a line of a report spells, or None."""
    found = FAULT.fullmatch(text)
    if not found:
        return None
    race = found["side"] is not None
    verdict = "race" if race else found["timed"] or found["undetected"]
    time = found["at"] if race else found["time"]
    return Fault(
        found["site"], int(found["value"]), verdict, None if time is None else int(time), found["side"],
        int(found["phase"]) if race else None, access_of(found["first"]) if race else None,
        access_of(found["second"]) if race else None, text,
    )


def count_kinds(faults):
    """How many faults have each verdict, in the order of the totals line."""
    counts = dict.fromkeys(KINDS, 0)
    for fault in faults:
        counts[fault.verdict] += 1
    return counts


def totals_line(counts):
    return f"total {sum(counts.values())} " + " ".join(f"{kind} {count}" for kind, count in counts.items())


def report_of(text, name):
    """The report that a text is. Stops where it is none: a report cut short is never taken for a whole one."""
    lines = text.split("\n")
    if lines[0] != "vfault 1":
        stop(f"{name} line 1: no report of vfault: its first line isn't `vfault 1`")
    if len(lines) < 3 or lines[-1] != "" or not TOTAL.fullmatch(lines[-2]):
        stop(f"{name}: the line of the totals is missing: the report was cut short")
    faults = []
    for number, line in enumerate(lines[1:-2], 2):
        fault = fault_of(line)
        if fault is None:
            stop(f"{name} line {number}: no line of a report: {line}")
        faults.append(fault)
    counts = count_kinds(faults)
    if totals_line(counts) != lines[-2]:
        stop(f"{name}: the totals don't count its lines: {lines[-2]}")
    return Report(faults, counts)


def read_report(name):
    return report_of(read_text(name), name)



# What two accesses are called together, and what to do about them: by their kinds in the order of the alphabet.
ADVICE = {
    ("read", "write"): "The reader sees the old or the new value. Write what clocked blocks share with `<=`, or part the two in time.",
    ("write", "write"): "Either value may stay. Let one process write the object.",
    ("await", "write"): "The change may come before the wait begins, and is then missed. Give the object its first content in its declaration, and change it after time 0.",
    ("ended", "write"): "Of two edges at one time one may be missed. Let the edges come at different times.",
    ("held", "settle"): "The net may have a short pulse, or none. Wait for the clock and test the enable inside, or change the enable where the clock is quiet.",
    ("await", "settle"): "The net may have a short pulse, or none. Wait for the clock and test the enable inside, or change the enable where the clock is quiet.",
    ("read", "settle"): "The reader may see the net half way. Sample at another time than that at which the inputs change.",
}
OTHER_ADVICE = "The order of the two is free. Part them in time, or let one wait for the other."

Cause = namedtuple("Cause", "side first second time phase faults")


def pair_of(cause):
    """The kinds of the two accesses of a race, in the order of the alphabet."""
    return tuple(sorted((cause.first.kind, cause.second.kind)))


def causes_of(faults):
    """The races by cause: one machine and one pair of accesses, with its first time and the faults that it left without a verdict. The earliest first."""
    found = {}
    for fault in faults:
        if fault.verdict == "race":
            found.setdefault((fault.side, fault.first, fault.second), []).append(fault)
    causes = [Cause(*key, *min((it.time, it.phase) for it in members), members) for key, members in found.items()]
    return sorted(causes, key=lambda it: (it.time, it.phase, -len(it.faults)))


class Sources:
    """The files of a design in the order in which they were joined: which file and line a line of the design is."""

    def __init__(self, names):
        self.lines = []
        for name in names:
            lines = read_text(name).split("\n")
            self.lines += [(name, number, line) for number, line in enumerate(lines[:-1] if lines[-1] == "" else lines, 1)]

    def place(self, line):
        """File, line and text of a line of the design, or None where it has no such line."""
        return self.lines[line - 1] if 1 <= line <= len(self.lines) else None
