"""What is wrong with an output of the program that should be whole, as far as that is seen without the design: wrong_output(form, output, certificate)."""
import collections
import re

KINDS = {"grade": "detected possible undetected race hyper", "dict": "known race hyper", "diagnose": "exact possible excluded flagged"}
ACCESS = r"(?:write|read|await|ended|held|settle) \S+ p\d+ l\d+"
END = rf"(?:hyper (\d+)|race (good|faulty) (\d+)\.\d+ {ACCESS} {ACCESS})"
FAULT = re.compile(rf"\S+ sa[01] (?:detected (\d+)|possible \d+|undetected|{END})")
ENTRY = re.compile(rf"\S+ sa[01] (?:known (\d+)|{END})")
SAMPLE = re.compile(r"(0|[1-9]\d*) ([01xz]*)")
EXPLAINS = re.compile(r"\S+ sa[01] (?:exact|possible|flagged)")
KEPT = re.compile(r"strobe (\d+) for (\S+ sa[01])")
KEPT_TOTAL = re.compile(r"total (\d+) kept (\d+) detected (\d+)")
STEPS = re.compile(r"[pu] (0|[1-9]\d*) [1-9]\d*")
SIZES = re.compile(r"objects \d+ nodes \d+ processes \d+\n")
SITE = re.compile(r"fault \S+ [01] # (\d+)")


def is_ascending(times):
    return all(first < second for first, second in zip(times, times[1:]))


def wrong_total(form, line, counts):
    """What is wrong with a line of totals: it is of this form, the kinds add up, and of each as many lines were counted, but of those that have none."""
    found = re.fullmatch(r"total (\d+)" + "".join(rf" {kind} (\d+)" for kind in KINDS[form].split()), line)
    if not found:
        return f"no totals: {line!r}"
    total, *kinds = (int(count) for count in found.groups())
    if total != sum(kinds):
        return "totals that don't add up"
    return next((f"totals that don't fit: {kind}" for kind, count in zip(KINDS[form].split(), kinds) if kind != "excluded" and counts is not None and counts[kind] != count), None)


def kinds_of(lines):
    return collections.Counter(line.split(" ")[2] for line in lines)


def wrong_report(lines):
    return next((f"the line {line!r}" for line in lines[1:-1] if not FAULT.fullmatch(line)), None) or wrong_total("grade", lines[-1], kinds_of(lines[1:-1]))


def wrong_faults(output):
    """What is wrong with a list of faults: each line has the place of a line not behind it, which has its own place."""
    lines = output.split("\n")
    found = [SITE.fullmatch(line) for line in lines[:-1]]
    if lines[-1] or not all(found):
        return "no list of faults"
    firsts = [int(line[1]) for line in found]
    return None if all(first <= place and firsts[first] == first for place, first in enumerate(firsts)) else "classes that don't fit"


def wrong_dictionary(lines):
    good = [line[5:] for line in lines if line.startswith("good ")]
    samples = [SAMPLE.fullmatch(line) for line in good]
    if lines[1:len(good) + 1] != ["good " + line for line in good] or not all(samples):
        return "good samples out of form"
    bits = {int(sample[1]): sample[2] for sample in samples}
    if not is_ascending([int(sample[1]) for sample in samples]) or len({len(sample) for sample in bits.values()}) > 1:
        return "good samples that don't fit"
    at, entries = len(good) + 1, []
    while at < len(lines) - 1:
        entry = ENTRY.fullmatch(lines[at])
        if not entry:
            return f"the line {lines[at]!r}"
        entries.append(lines[at])
        own = [SAMPLE.fullmatch(line) for line in lines[at + 1:at + 1 + int(entry[1] or 0)]]
        if not all(own) or not is_ascending([int(sample[1]) for sample in own]):
            return f"samples out of form behind {lines[at]!r}"
        if any(len(sample[2]) != len(bits.get(int(sample[1]), "")) or sample[2] == bits[int(sample[1])] for sample in own):
            return f"samples that don't differ behind {lines[at]!r}"
        at += 1 + len(own)
    return wrong_total("dict", lines[-1], kinds_of(entries))


def wrong_diagnosis(lines):
    first = 2 if len(lines) > 2 and lines[1] in ("good exact", "good possible") else 1
    return next((f"the line {line!r}" for line in lines[first:-1] if not EXPLAINS.fullmatch(line)), None) or wrong_total("diagnose", lines[-1], kinds_of(lines[first:-1]))


def wrong_pick(lines):
    kept, total = [KEPT.fullmatch(line) for line in lines[1:-1]], KEPT_TOTAL.fullmatch(lines[-1])
    if not all(kept) or not total:
        return f"the line {next(line for line, found in zip(lines[1:], kept + [total]) if not found)!r}"
    if not is_ascending([int(found[1]) for found in kept]) or len({found[2] for found in kept}) < len(kept):
        return "strobes out of order, or two for one fault"
    strobes, count, detected = (int(number) for number in total.groups())
    return None if count == len(kept) <= min(strobes, detected) else "totals that don't fit"


def wrong_run(lines, bound):
    """What is wrong with a run of a certificate: steps in slots from 0 up to the bound, and in phases."""
    slots, phase, before = [], 1, None
    for line in lines:
        if re.fullmatch(r"slot (0|[1-9]\d*)", line):
            slots.append(int(line[5:]))
            phase, before = 1, None
        elif slots and line == f"phase {phase + 1}":
            phase, before = phase + 1, None
        elif slots and STEPS.fullmatch(line) and before != line.split(" ")[:2]:
            before = line.split(" ")[:2]
        else:
            return f"the line {line!r} of a run"
    return None if slots[:1] == [0] and is_ascending(slots) and (bound is None or slots[-1] <= bound) else "slots out of order"


def wrong_certificate(lines):
    fault = FAULT.fullmatch(lines[1]) if len(lines) > 2 else None
    if not fault or lines[-1] != "end":
        return "no fault or no end"
    detected, looped, side, raced = fault.groups()
    if looped:
        return None if len(lines) == 3 else "runs of a loop"
    if lines[2] != "good" or lines.count("faulty") != 1:
        return "no two runs"
    at = lines.index("faulty")
    runs = {"good": lines[3:at], "faulty": lines[at + 1:-1]}
    if side and runs.pop({"good": "faulty", "faulty": "good"}[side]):
        return "a run that a race doesn't need"
    bound = detected or raced
    return next((wrong for wrong in (wrong_run(run_lines, bound and int(bound)) for run_lines in runs.values()) if wrong), None)


def lines_of(content):
    """The lines of a file, the last with or without its end."""
    lines = content.decode("latin-1").split("\n")
    return [line.removesuffix("\r") for line in (lines[:-1] if lines[-1] == "" else lines)]


def wrong_audit(output, certificate):
    claimed, number = certificate[1] if len(certificate) > 1 else None, re.fullmatch(r"no ([1-9]\d*)\n", output)
    if number:
        return None if int(number[1]) <= len(certificate) + 1 else "no such line of the certificate"
    return None if output == f"yes {claimed}\n" and FAULT.fullmatch(claimed) else "neither no with a line nor yes with the second line"


WRONG = {"grade": ("vfault 1", wrong_report), "dict": ("vfault dict 1", wrong_dictionary), "diagnose": ("vfault diagnose 1", wrong_diagnosis), "pick": ("vfault pick 1", wrong_pick),
         "certify": ("vfault cert 1", wrong_certificate)}


def wrong_output(form, output, certificate):
    """What is wrong with the output of a run of this form that went well, or None; `certificate` has the lines of the one that was audited."""
    if form == "check":
        return None if SIZES.fullmatch(output) else "no sizes"
    if form == "faults":
        return wrong_faults(output)
    if form == "audit":
        return wrong_audit(output, certificate)
    lines = output.split("\n")
    if lines.pop() or not lines:
        return "no whole lines"
    if form == "soak":
        return wrong_total("grade", lines[0], None) if len(lines) == 1 else "more than the totals"
    header, wrong = WRONG[form]
    return "no header, or nothing behind it" if lines[0] != header or len(lines) < 2 else wrong(lines)
