#!/usr/bin/env python3
"""Runs the program over mutated texts, and looks how each run ends: bench/fuzz.py [PROGRAM] [--form FORM] [--texts N] [--seed S] [--seconds T] [--keep FOLDER]

PROGRAM is the built program, by itself the one that ./run builds. The texts are the designs and plans of examples/ and those of the cases `constructs` and of the cases of
dict, diagnose, pick, certify and audit, each with a few tokens or bytes taken out, put in, repeated, exchanged or put in place of others, or with a piece of another text. The
words are those of all forms in both modes, now and then with a word more, less or changed; --form, which may stand several times, takes some forms alone. FAULT is in and out of
range. A response or a certificate is one of the same case, or is made of what the program writes by dict or certify over this very design and plan; most are mutated too. N is
10000. Text k of a seed is the same for each run of this script over a program that writes the same.

A run is wrong where it ends by a signal, with a status that its words and texts can't have, with a message that isn't the status's own, at a place that isn't in the text,
with output beside a message, with an output that isn't whole, or later than after T seconds (10); also where the program's own certificate doesn't hold, and where its own good
samples aren't explained by the good machine. Each wrong text is printed with its number and what was wrong, and is kept in FOLDER where one is given. The last lines count the
runs by their forms and ends; the status is 1 where one was wrong.
"""
import argparse
import collections
import json
import os
import random
import re
import signal
import subprocess
import sys
import tempfile
import time

# no folder of compiled modules beside the scripts
sys.dont_write_bytecode = True
from audit_fuzz import Mutations
from whole_output import SAMPLE, lines_of, wrong_output

HOME = os.path.dirname(os.path.dirname(os.path.abspath(__file__)))
TOKEN = re.compile(rb"\s+|//[^\n]*|/\*.*?\*/|\"[^\"\n]*\"|[A-Za-z_$][\w$]*|[0-9]*\s*'[sS]?[bodhBODH]\s*[0-9a-fA-FxXzZ?_]+|[0-9]+|===|!==|<<<|>>>|&&|\|\||[=!<>]=|<<|>>|~[&|^]|\^~|.", re.S)
# What is put in: words of the grammar and others, marks, and numbers at the edges of what is allowed.
WORDS = ("module endmodule parameter localparam input output wire reg integer signed assign initial always and nand or nor xor xnor buf not begin end if else case casez casex "
         "endcase default for while repeat forever wait posedge negedge inout task function real time supply0 tri defparam generate fork join $display $finish $stop $random $ top a q clk").split()
MARKS = "=== !== <<< >>> && || == != <= >= << >> ~& ~| ~^ ^~ + - * / % ! ~ & | ^ < > = ? : ; , . ( ) [ ] { } # @ ` \\ \" ' /* */ //".split()
NUMBERS = ("0 1 2 63 64 65 127 128 129 255 256 4095 4096 65535 65536 65537 1048575 1048576 2147483647 2147483648 4294967295 4294967296 18446744073709551616 1'b0 1'bx 1'bz 4'bx01z 128'hx "
           "129'd1 0'd1 8'sh80 'd99 'sb1 32'hffffffff 4'd 4' 'q 1_0 1__").split()
POOL = [word.encode() for word in WORDS + MARKS + NUMBERS]
# Tokens of which one can stand in the place of another.
GROUPS = ["+ - * / % & | ^ ~^ ^~ == != === !== < <= > >= << >> <<< >>> && ||", "~ ! ~& ~|", "and nand or nor xor xnor", "buf not", "posedge negedge", "= <=", "initial always", "wire reg",
          "case casez casex", "while repeat", "if wait", "$finish $stop $display", "parameter localparam", "input output", "0 1"]
ALIKE = {word.encode(): [other.encode() for other in group.split()] for group in reversed(GROUPS) for word in group.split()}
BYTES = [bytes([value]) for value in (0, 9, 10, 12, 13, 32, 34, 36, 39, 40, 41, 47, 59, 64, 92, 96, 123, 125, 127, 128, 255)]
DESIGN_WORDS = ("bad byte|bad number|not closed|unexpected|not in the profile|too deep|unknown name|declared twice|not a constant|bad width|bad connection|two drivers of bit [0-9]+"
                "|wrong kind of name|loop")
PLACE = re.compile(rf"vfault: design (\d+):(\d+): (?:{DESIGN_WORDS})\n")
NO_PLACE = re.compile(r"vfault: design: (?:no module of that name|too many (?:objects|nodes|processes|instances|inputs) \([0-9]+\))\n")
PLAN_LINE = re.compile(r"vfault: plan (\d+): (?:bad line|unknown name|too many)\n")
RESPONSE_LINE = re.compile(r"vfault: response (\d+): bad line\n")
TOO_LARGE = re.compile(r"vfault: the dictionary is too large \((\d+)\)\n")
FILE = "(design|plan|response|certificate)"
OTHER = {5: "vfault: out of memory\n", 7: f"vfault: the {FILE} is too long\n", 6: r"vfault: the good machine loops at time \d+\n", 2: "vfault: usage: [^\n]*\n",
         3: f"vfault: cannot read the {FILE}\n"}
# How many words of a form stand behind it, and which of them are files.
NEEDS = {"grade": 4, "check": 2, "faults": 2, "soak": 3, "dict": 3, "diagnose": 4, "pick": 3, "certify": 4, "audit": 4}
READS = {"soak": {}, "check": {"design": 1}, "faults": {"design": 1}, "diagnose": {"design": 1, "plan": 2, "response": 4}, "audit": {"design": 1, "plan": 2, "certificate": 4}}
NEVER = {"check": (6,), "faults": (6,), "audit": (6,), "soak": (1, 3, 7)}
WEIGHED = ["grade"] * 6 + ["check", "faults", "soak"] + ["dict", "pick"] + ["diagnose", "certify"] * 2 + ["audit"] * 3


def read(*path):
    with open(os.path.join(HOME, *path), "rb") as file:
        return file.read()


# A text before it is changed: `third` is the response or the certificate, None where there is none.
Original = collections.namedtuple("Original", "form design plan top third")


def sources():
    """What is mutated: the designs of the examples that are graded, of the cases `constructs`, and the texts of the cases of each later form."""
    found = set()
    for folder in sorted(os.listdir(f"{HOME}/examples")):
        if os.path.exists(f"{HOME}/examples/{folder}/runs"):
            for line in read("examples", folder, "runs").decode().splitlines():
                words = line.split(" ")[2:]
                if words[0] == "grade" and all(os.path.exists(f"{HOME}/examples/{folder}/{word}") for word in words[1:3]):
                    found.add(Original("grade", read("examples", folder, words[1]), read("examples", folder, words[2]), words[3], None))
    for family in ("constructs", "examples", "dict", "diagnose", "pick", "certify", "audit", "further", "certificates"):
        for line in read("crates", "case_runs", "data", f"{family}.jsonl").splitlines():
            case = json.loads(line)
            form, *words = case["args"] or [""]
            if case["status"] == 2 or form not in ("grade" if family == "constructs" else "dict diagnose pick certify audit").split():
                continue
            files = [case["files"].get(word, "").encode("latin-1") for word in words]
            if files[0] and files[1]:
                found.add(Original(form, files[0], files[1], words[2], files[3] if form in ("diagnose", "audit") else None))
    return sorted(found, key=lambda original: (*original[:4], original.third or b""))


class Fuzz:
    """Text k of a seed. `written` gives what the program writes by these words over these files."""

    def __init__(self, seed, number, originals, forms, written):
        self.random = random.Random(f"{seed} {number}")
        self.lines = Mutations(f"{seed} {number}")
        self.originals = originals
        self.form = self.random.choice(forms)
        self.third = {"diagnose": "response", "audit": "cert"}.get(self.form)
        of_form = [original for original in originals if original.form == self.form]
        original = self.random.choice(of_form if of_form and self.random.random() < 0.6 else originals)
        self.top = original.top
        self.mode = ["strict"] * (self.random.random() < 0.25)
        changed = self.random.choice(["design"] * 5 + ["plan"] * 4 + ["design plan"]).split()
        if self.third:
            changed = self.random.choice(["design"] * 2 + ["plan"] + ["third"] * 5 + ["design third", "plan third", ""]).split()
        self.files = {"design": self.mutated(original.design, "design") if "design" in changed else original.design,
                      "plan": self.with_early_end(original.plan, self.mutated(original.plan, "plan")) if "plan" in changed else original.plan, "response": b"", "cert": b""}
        # what the whole output has to begin with
        self.wanted = ""
        if self.third:
            self.files[self.third] = self.third_file(original if original.form == self.form else None, "third" in changed, written)
        self.words = self.choose_words()

    def choose_words(self):
        words = [self.form, "design", "plan", self.top][:3 + (self.form not in ("check", "faults"))]
        if self.form in ("check", "faults"):
            words[2] = self.top
        if self.third:
            words.append(self.third)
        elif self.form == "grade":
            words.append(self.random.choice("113"))
        elif self.form == "certify":
            numbers = ["1", "1", "1", "2", "3", str(self.random.randrange(1, 12)), str(self.random.randrange(100)), self.random.choice(["65535", "65536", "65537", "01", "4294967297"])]
            words.append(self.random.choice(numbers))
        words += self.mode
        if self.form == "soak":
            words = ["soak", self.random.choice(["0", "7", "4294967295", "4294967296", "-1", "01"]), self.random.choice(["1", "3", "0", "4001"]), self.random.choice(["1", "2", "65"])]
        if self.random.random() < 0.03:
            at = self.random.randrange(len(words))
            words[at:at + self.random.randrange(2)] = self.random.choice([[], [""], ["strict"], ["0"], ["plan"], ["\xe9"], ["x" * 5000]])
            self.wanted = ""
        return words

    def third_file(self, original, is_changed, written):
        """The response or the certificate: that of the original, or the program's own over this design and plan, with changes or without."""
        text = original and original.third
        if text is None or self.random.random() < 0.5:
            own = (self.own_certificate if self.third == "cert" else self.own_response)(written)
            text = own if own is not None else text or self.random.choice([other.third for other in self.originals if other.form == self.form])
        if is_changed:
            self.wanted = ""
            text = self.third_changed(text)
        return text

    def own_certificate(self, written):
        own = written(["certify", "design", "plan", self.top, self.random.choice("11123456"), *self.mode], self.files)
        if own is None:
            return None
        line = own.split("\n")[1]
        self.wanted = "" if " hyper " in line else f"yes {line}\n"
        return own.encode("latin-1")

    def own_response(self, written):
        own = written(["dict", "design", "plan", self.top, *self.mode], self.files)
        if own is None:
            return None
        # where a fault is known, so are all samples of the good machine
        self.wanted = "vfault diagnose 1\ngood exact\n" if re.search(r"\ntotal \d+ known [1-9]", own) else ""
        good = "".join(line[5:] + "\n" for line in own.split("\n") if line.startswith("good ") and SAMPLE.fullmatch(line[5:]))
        return good.replace("x", "-").replace("z", "-").encode("latin-1")

    def third_changed(self, text):
        kind = self.random.random()
        if self.third == "response" and kind < 0.5:
            bits = [at for at, byte in enumerate(text) if byte in b"01-"]
            for at in self.random.choices(bits, k=self.random.choice([1, 1, 2, 4])) if bits else []:
                text = text[:at] + self.random.choice([b"0", b"1", b"-"]) + text[at + 1:]
            return text
        if kind < 0.8:
            text = text.decode("latin-1")
            return self.lines.mutated(text if text.endswith("\n") else text + "\n").encode("latin-1")
        return self.mutated(text, "third")

    def mutated(self, text, which):
        """The text after one to four changes."""
        for _ in range(self.random.choice([1, 1, 1, 1, 2, 4])):
            text = self.bytes_changed(text) if self.random.random() < 0.15 else self.tokens_changed(text, which)
        return text[:1 << 17]

    def bytes_changed(self, text):
        at = self.random.randrange(len(text) + 1)
        length = self.random.choice([0, 0, 1, 1, 2, 30])
        new = self.random.choice([b"", self.random.choice(BYTES), bytes([self.random.randrange(256)]), text[at:at + 8] * 2])
        return text[:at] if self.random.random() < 0.05 else text[:at] + new + text[at + length:]

    def tokens_changed(self, text, which):
        tokens = TOKEN.findall(text) or [b""]
        solid = [at for at, token in enumerate(tokens) if not token.isspace()] or [0]
        first, second = sorted((self.random.choice(solid), self.random.choice(solid)))
        kind = self.random.choice([0, 1, 2, 3, 4, 5, 6, 7, 8, 8, 8, 8, 8, 8, 8, 8])
        if kind == 0:
            tokens[first], tokens[second] = tokens[second], tokens[first]
        elif kind == 1:
            tokens[first] = b""
        elif kind == 2:
            tokens[first] = self.random.choice(POOL)
        elif kind == 3:
            tokens[first] = tokens[second]
        elif kind == 4:
            tokens.insert(first, self.random.choice(POOL) + b" ")
        elif kind == 5:
            tokens[first] = (tokens[first] + b" ") * self.random.choice([2, 3, 300])
        elif kind == 6:
            tokens[first:first + 12] = tokens[first:first + 12] * 2
        elif kind == 8:
            tokens[first] = self.random.choice(ALIKE.get(tokens[first]) or self.of_its_kind(tokens, tokens[first]))
        else:
            other = TOKEN.findall(getattr(self.random.choice(self.originals), which) or b"") or [b""]
            at = self.random.randrange(len(other))
            tokens[first:first + self.random.randrange(12)] = other[at:at + self.random.randrange(1, 40)]
        return b"".join(tokens)

    def of_its_kind(self, tokens, token):
        """Tokens that may well stand in place of this one: other names or numbers of the text, and for a number those of the pool."""
        if token[:1].isdigit() or token[:1] == b"'":
            return [other for other in tokens if other[:1].isdigit() or other[:1] == b"'"] + [number.encode() for number in NUMBERS]
        return [other for other in tokens if other[:1].isalpha() and other not in POOL] or [token]

    def with_early_end(self, plan, changed):
        """The changed plan, with the end of the plan where a later one would make the run long by right."""
        end = re.match(rb"\s*end[ \t]+([0-9]{1,13})(?![0-9])", changed)
        own = int(re.match(rb"end ([0-9]+)", plan)[1]) if plan.startswith(b"end ") else 100
        if end and own < int(end[1]) <= 1000000000000:
            return changed[:end.start(1)] + str(own).encode() + changed[end.end(1):]
        return changed


def is_form(words):
    """Whether the words are of a form."""
    need = NEEDS.get(words[0] if words else "")
    rest = words[1:]
    if need is None or (len(rest) != need and (words[0] == "soak" or len(rest) != need + 1 or rest[-1] != "strict")):
        return False

    def is_number(word, least, most):
        return bool(re.fullmatch("0|[1-9][0-9]{0,9}", word)) and least <= int(word) <= most

    # a word is written as bytes of latin-1, so one beyond ASCII is no UTF-8 and of no form
    if "" in rest or not all(word.isascii() for word in words):
        return False
    if words[0] == "soak":
        return is_number(rest[0], 0, 4294967295) and is_number(rest[1], 1, 4000) and is_number(rest[2], 1, 64)
    return words[0] not in ("grade", "certify") or is_number(rest[3], 1, 64 if words[0] == "grade" else 65536)


def wrong_message(text, status, message):
    """What is wrong with the message of a run over this text, or None."""
    form = text.words[0]
    reads = READS.get(form, {"design": 1, "plan": 2})
    if status != 1:
        said = re.fullmatch(OTHER[status], message)
        return None if said and (not said.groups() or said[1] in reads) else f"status {status} with {message!r}"
    place, no_fault, too_large = PLACE.fullmatch(message), re.fullmatch(r"vfault: no fault (\d+)\n", message), TOO_LARGE.fullmatch(message)
    if place:
        lines = text.files[text.words[1]].split(b"\n")
        row, column = int(place[1]), int(place[2])
        return None if 1 <= row <= len(lines) and 1 <= column <= len(lines[row - 1]) + 1 else f"no such place: {message!r}"
    for file, pattern in (("plan", PLAN_LINE), ("response", RESPONSE_LINE)):
        line = pattern.fullmatch(message)
        if line and file in reads:
            return None if 1 <= int(line[1]) <= len(lines_of(text.files[text.words[reads[file]]])) + 1 else f"no such line: {message!r}"
    if no_fault and form == "certify" and no_fault[1] == text.words[4] or too_large and form in ("dict", "diagnose", "pick") and int(too_large[1]) > 268435456:
        return None
    return None if NO_PLACE.fullmatch(message) else f"status 1 with {message!r}"


def wrong_end(text, status, output, message):
    """What is wrong with the end of a run, or None."""
    if status < 0:
        return f"ended by {signal.Signals(-status).name}"
    if status not in range(8) or status == 4 or status in NEVER.get(text.form, ()) and is_form(text.words):
        return f"status {status}: {message[:200]!r}"
    if (status == 2) == is_form(text.words):
        return f"status {status} for the words {text.words}"
    if status == 0 and not output.startswith(text.wanted):
        return f"{output[:200]!r} where {text.wanted!r} has to stand"
    if status == 0:
        certificate = lines_of(text.files[text.words[4]]) if text.form == "audit" else None
        return wrong_output(text.words[0], output, certificate) or (f"a message: {message[:200]!r}" if message else None)
    if output:
        return "output beside a message"
    if text.wanted:
        return f"{message[:200]!r} where {text.wanted!r} has to stand"
    if status == 5:
        return "want of memory"
    return wrong_message(text, status, message) if status != 2 or re.fullmatch(OTHER[2], message) else f"status 2 with {message!r}"


def write_files(folder, files):
    for name, content in files.items():
        with open(f"{folder}/{name}", "wb") as file:
            file.write(content)


def run(program, words, folder, seconds):
    """The status, the output and the message of a run, or None where it has no end."""
    try:
        done = subprocess.run([program] + [word.encode("latin-1") for word in words], cwd=folder, capture_output=True, timeout=seconds + 20)
    except subprocess.TimeoutExpired:
        return None
    return done.returncode, done.stdout.decode("latin-1"), done.stderr.decode("latin-1")


def run_text(program, text, folder, seconds):
    """How the run over a text ended, and what is wrong with that or None."""
    write_files(folder, text.files)
    began = time.monotonic()
    end = run(program, text.words, folder, seconds)
    took = time.monotonic() - began
    if end is None:
        return "no end", f"no end after {seconds + 20:g} s"
    said = f" {end[1].split(' ')[0]}" if text.words[0] == "audit" and end[0] == 0 else ""
    return f"status {end[0]}{said}", wrong_end(text, *end) or (f"took {took:.1f} s" if took > seconds else None)


def keep(folder, number, text):
    os.makedirs(f"{folder}/{number}", exist_ok=True)
    write_files(f"{folder}/{number}", text.files)
    with open(f"{folder}/{number}/words", "w", encoding="utf-8") as file:
        file.write(json.dumps(text.words) + "\n")


def words_of_command_line():
    parser = argparse.ArgumentParser(description=__doc__, formatter_class=argparse.RawDescriptionHelpFormatter)
    parser.add_argument("program", nargs="?", default=f"{HOME}/crates/vfault/out/vfault", metavar="PROGRAM")
    parser.add_argument("--form", action="append", choices=sorted(NEEDS), metavar="FORM")
    parser.add_argument("--texts", type=int, default=10000, metavar="N")
    parser.add_argument("--first", type=int, default=0, metavar="K", help="the number of the first text")
    parser.add_argument("--most", type=int, default=1 << 20, metavar="BYTES", help="leaves out the designs that have more bytes with their plans, for a slow build")
    parser.add_argument("--seed", type=int, default=1, metavar="S")
    parser.add_argument("--seconds", type=float, default=10, metavar="T")
    parser.add_argument("--keep", metavar="FOLDER")
    return parser.parse_args()


def main():
    given = words_of_command_line()
    program = os.path.realpath(given.program)
    originals = [original for original in sources() if sum(len(content or b"") for content in (original.design, original.plan, original.third)) <= given.most]
    ends, wrongs = collections.Counter(), 0
    with tempfile.TemporaryDirectory() as folder:
        def written(words, files):
            write_files(folder, files)
            end = run(program, words, folder, given.seconds)
            return end[1] if end and end[0] == 0 else None

        for number in range(given.first, given.first + given.texts):
            text = Fuzz(given.seed, number, originals, given.form or WEIGHED, written)
            end, wrong = run_text(program, text, folder, given.seconds)
            ends[f"{text.form} {end}"] += 1
            if wrong:
                wrongs += 1
                print(f"text {number}: {wrong}", flush=True)
                if given.keep:
                    keep(given.keep, number, text)
    print(f"{given.texts} texts over {len(originals)} originals: " + ", ".join(f"{end} {count} times" for end, count in sorted(ends.items())))
    print(f"{wrongs} wrong")
    return 1 if wrongs else 0


if __name__ == "__main__":
    sys.exit(main())
