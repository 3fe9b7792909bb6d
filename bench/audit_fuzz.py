#!/usr/bin/env python3
"""Audits mutated certificates, and compares each answer with that of an independent model: bench/audit_fuzz.py FOLDER [PROGRAM] [--seed S] [--seconds T] [--keep PLACE]

FOLDER holds the model as the package `model`, which isn't part of this repository; PROGRAM is the built program, by itself the one that ./run builds. The certificates are those
that the model writes of the faults of small graded examples; each gets one to three changes: lines exchanged, left out, repeated, split in two or put in, and words of a line put in
place of others. It goes on for T seconds (60). Each certificate on which the two differ is printed with its number, and kept in PLACE where one is given. The last line counts the
certificates, those that hold and those that differ; the status is 1 where one differs.
"""
import argparse
import os
import random
import subprocess
import sys
import tempfile
import time

HOME = os.path.dirname(os.path.dirname(os.path.abspath(__file__)))
NUMBERS = [str(number) for number in range(12)] + ["01", "", "-1", "100000", "100001", "4294967296", "18446744073709551616"]
LINES = ["", "end", "good", "faulty", "slot 0", "phase 2", "p 0 1", "u 0 1", "# a comment", "vfault cert 1"]
MOST_BYTES = 4096


def read(*path):
    with open(os.path.join(HOME, *path), "rb") as file:
        return file.read()


def sources(run):
    """The certificates of the examples' faults, each with its files and its words, as the model writes them, but long ones."""
    for folder in sorted(os.listdir(f"{HOME}/examples")):
        if not os.path.exists(f"{HOME}/examples/{folder}/runs"):
            continue
        for line in read("examples", folder, "runs").decode().splitlines():
            _, _, form, *words = line.split(" ")
            if form != "grade" or not all(os.path.exists(f"{HOME}/examples/{folder}/{word}") for word in words[:2]):
                continue
            files = {"design": read("examples", folder, words[0]), "plan": read("examples", folder, words[1])}
            if len(files["design"]) + len(files["plan"]) > MOST_BYTES // 4:
                continue
            for place in range(1, 9):
                status, text, _ = run(["certify", "design", "plan", words[2], str(place), *words[4:]], files)
                if status == 0 and len(text) <= MOST_BYTES:
                    yield files, [words[2], *words[4:]], text


class Mutations:
    """Changes of a certificate's lines."""

    def __init__(self, seed):
        self.random = random.Random(seed)

    def mutated(self, text):
        lines = text.split("\n")[:-1]
        for _ in range(self.random.choice([1, 1, 1, 2, 3])):
            change = self.random.choice([self.exchanged, self.neighbours, self.neighbours, self.left_out, self.repeated, self.another_word, self.another_word, self.split, self.split,
                                         self.another_end, self.put_in])
            change(lines, self.random.randrange(len(lines)))
            lines = lines or [""]
        return "\n".join(lines) + self.random.choice(["\n", "\n", "\n", ""])

    def exchanged(self, lines, at):
        other = self.random.randrange(len(lines))
        lines[at], lines[other] = lines[other], lines[at]

    def neighbours(self, lines, at):
        lines[at:at + 2] = reversed(lines[at:at + 2])

    def left_out(self, lines, at):
        del lines[at]

    def repeated(self, lines, at):
        lines.insert(at, self.random.choice(lines))

    def another_word(self, lines, at):
        words = lines[at].split(" ")
        words[self.random.randrange(len(words))] = self.random.choice(NUMBERS + words)
        lines[at] = " ".join(words)

    def split(self, lines, at):
        """A line of several steps is made two, of which the second stands a few lines later."""
        words = lines[at].split(" ")
        if words[0] in ("p", "u") and len(words) == 3 and words[2].isdigit() and int(words[2]) > 1:
            first = self.random.randrange(1, int(words[2]))
            lines.insert(at + self.random.randrange(1, 5), f"{words[0]} {words[1]} {int(words[2]) - first}")
            lines[at] = f"{words[0]} {words[1]} {first}"

    def another_end(self, lines, at):
        """The second line claims something else of its fault."""
        words = (lines[1] if len(lines) > 1 else lines[0]).split(" ")
        time_of = words[3] if len(words) == 4 else str(at)
        ends = [["undetected"], ["detected", time_of], ["possible", time_of], ["hyper", time_of], ["detected", str(at)]]
        if len(words) == 12:
            ends = [words[2:5] + words[8:] + words[4:8], words[2:4] + ["5.1"] + words[5:], words[2:3] + ["good"] + words[4:], words[2:3] + ["faulty"] + words[4:]]
        lines[min(1, len(lines) - 1)] = " ".join(words[:2] + self.random.choice(ends))

    def put_in(self, lines, at):
        lines[at] = self.random.choice(LINES + [lines[at] + " ", " " + lines[at], lines[at] + "\r", lines[at].replace(" ", "  ")])


def audited(program, files, words):
    """What the program answers over these files."""
    with tempfile.TemporaryDirectory() as folder:
        for name, content in files.items():
            with open(f"{folder}/{name}", "wb") as file:
                file.write(content)
        done = subprocess.run([program, *words], cwd=folder, capture_output=True, check=False)
    return done.returncode, done.stdout.decode("latin-1"), done.stderr.decode("latin-1").strip()


def keep(place, number, files, words):
    os.makedirs(f"{place}/{number}", exist_ok=True)
    for name, content in {**files, "words": (" ".join(words) + "\n").encode()}.items():
        with open(f"{place}/{number}/{name}", "wb") as file:
            file.write(content)


def words_of_command_line():
    parser = argparse.ArgumentParser(description=__doc__, formatter_class=argparse.RawDescriptionHelpFormatter)
    parser.add_argument("folder", metavar="FOLDER")
    parser.add_argument("program", nargs="?", default=f"{HOME}/crates/vfault/out/vfault", metavar="PROGRAM")
    parser.add_argument("--seed", type=int, default=1, metavar="S")
    parser.add_argument("--seconds", type=float, default=60, metavar="T")
    parser.add_argument("--keep", metavar="PLACE")
    return parser.parse_args()


def main():
    given = words_of_command_line()
    sys.dont_write_bytecode = True
    sys.path.insert(0, given.folder)
    from model.cli import run  # the folder is told by the command line
    originals = list(sources(run))
    mutations = Mutations(given.seed)
    count = holds = wrong = 0
    began = time.monotonic()
    while time.monotonic() - began < given.seconds:
        files, words, text = mutations.random.choice(originals)
        files = {**files, "cert": mutations.mutated(text).encode("latin-1")}
        words = ["audit", "design", "plan", words[0], "cert", *words[1:]]
        wanted, got = run(words, files), audited(os.path.realpath(given.program), files, words)
        count += 1
        holds += wanted[1].startswith("yes ")
        if got != wanted:
            wrong += 1
            print(f"certificate {count}: {got}, wanted {wanted}", flush=True)
            if given.keep:
                keep(given.keep, count, files, words)
    print(f"{count} certificates, mutated from {len(originals)}: {holds} hold, {wrong} differ")
    return 1 if wrong else 0


if __name__ == "__main__":
    sys.exit(main())
