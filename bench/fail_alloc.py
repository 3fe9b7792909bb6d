#!/usr/bin/env python3
"""Refuses each allocation of a run in turn, and tells how each run ended: bench/fail_alloc.py [PROGRAM] [--step N] [--run NAME] [-- WORD..]

PROGRAM is the built program, by itself the one that ./run builds. The runs are those of the table RUNS: cases of crates/case_runs/data, in each form, the last ones over a
design with every construct. After -- stand the words of one run in the present folder instead. Each run has to write what it writes without a refusal and to end as it does
then, or to write a prefix of that and end with 5; anything else is printed, and the status is then 1, as it is where a run allocates nothing that can be refused.
--step N refuses each N-th allocation only, --run NAME takes the runs in whose line of --list NAME stands.
Needs cc and the C library of GNU, on x86-64. Takes one run of the program for each allocation.
"""
import argparse
import json
import os
import signal
import subprocess
import sys
import tempfile

HOME = os.path.dirname(os.path.dirname(os.path.abspath(__file__)))
# Each family with the cases that are run.
RUNS = [("call", "a block"), ("call", "a glitch"), ("call", "a gate"), ("call", "its faults"), ("call", "its size"), ("call", "a generated design of one register"),
        ("further", "further a gate with all faults, dict"), ("further", "further a gate with all faults, diagnose"), ("further", "further a gate with all faults, pick"),
        ("examples", "certificate: certify design.v plan.txt top 1"), ("examples", "certificate: audit design.v plan.txt top valid.cert"),
        ("examples", "certificate: audit design.v plan.txt top race.cert"),
        ("constructs", "every construct: its size"), ("constructs", "every construct: its faults"), ("constructs", "every construct")]
NO_MEMORY = (5, b"vfault: out of memory\n")
LIBRARY = r"""
#define _GNU_SOURCE
#include <dlfcn.h>
#include <errno.h>
#include <stdint.h>
#include <stdlib.h>
#include <string.h>
#include <sys/mman.h>
#include <unistd.h>
/* Answers want of memory at the call with the number in REFUSED, and writes a byte to descriptor 9 as it does.
   A program that brings its own malloc is made to come here by the jump that its malloc begins with. */
void *__libc_malloc(size_t), *__libc_realloc(void *, size_t), *__libc_calloc(size_t, size_t), *__libc_memalign(size_t, size_t);
static void *(*real_malloc)(size_t) = __libc_malloc, *(*real_realloc)(void *, size_t) = __libc_realloc, *(*real_calloc)(size_t, size_t) = __libc_calloc;
static void *(*real_memalign)(size_t, size_t) = __libc_memalign, *(*real_aligned)(size_t, size_t) = __libc_memalign;
static int (*real_posix)(void **, size_t, size_t);
static unsigned long calls, refused;
static int is_refused(void) {
    if (__sync_add_and_fetch(&calls, 1) != refused) return 0;
    if (write(9, "r", 1) < 0) _exit(99);
    errno = ENOMEM;
    return 1;
}
static void *take(size_t size) { return is_refused() ? 0 : real_malloc(size); }
static void *retake(void *old, size_t size) { return is_refused() ? 0 : real_realloc(old, size); }
static void *take_zeros(size_t count, size_t size) { return is_refused() ? 0 : real_calloc(count, size); }
static void *take_memalign(size_t unit, size_t size) { return is_refused() ? 0 : real_memalign(unit, size); }
static void *take_aligned(size_t unit, size_t size) { return is_refused() ? 0 : real_aligned(unit, size); }
static int take_posix(void **out, size_t unit, size_t size) {
    if (is_refused()) return ENOMEM;
    if (real_posix) return real_posix(out, unit, size);
    *out = real_memalign(unit, size);
    return *out ? 0 : ENOMEM;
}
void *malloc(size_t size) { return take(size); }
void *realloc(void *old, size_t size) { return retake(old, size); }
void *calloc(size_t count, size_t size) { return take_zeros(count, size); }
void *memalign(size_t unit, size_t size) { return take_memalign(unit, size); }
void *aligned_alloc(size_t unit, size_t size) { return take_aligned(unit, size); }
int posix_memalign(void **out, size_t unit, size_t size) { return take_posix(out, unit, size); }

/* Leads the jump at the beginning of the program's own `name` to `hook`, and gives where it led. */
static void lead(const char *name, void *hook, void **real) {
    unsigned char *entry = dlsym(RTLD_DEFAULT, name), *near = 0;
    Dl_info there, here;
    int32_t far;
    if (!entry || !dladdr(entry, &there) || !dladdr((void *)lead, &here) || there.dli_fbase == here.dli_fbase || !strstr(there.dli_fname, "libc.so") == 0) return;
    if (*entry != 0xE9) _exit(98);
    memcpy(&far, entry + 1, 4);
    *real = entry + 5 + far;
    for (uintptr_t at = ((uintptr_t)there.dli_fbase & ~0xFFFul) - 0x1000000; !near; at -= 0x10000) {
        near = mmap((void *)at, 4096, PROT_READ | PROT_WRITE | PROT_EXEC, MAP_PRIVATE | MAP_ANONYMOUS | MAP_FIXED_NOREPLACE, -1, 0);
        if (near == MAP_FAILED) near = 0;
    }
    memcpy(near, "\x49\xBB", 2);
    memcpy(near + 2, &hook, 8);
    memcpy(near + 10, "\x41\xFF\xE3", 3);
    far = (int32_t)(near - (entry + 5));
    unsigned char *page = (unsigned char *)((uintptr_t)entry & ~0xFFFul);
    if (mprotect(page, 8192, PROT_READ | PROT_WRITE | PROT_EXEC)) _exit(97);
    memcpy(entry + 1, &far, 4);
    mprotect(page, 8192, PROT_READ | PROT_EXEC);
}
__attribute__((constructor)) static void begin(void) {
    refused = strtoul(getenv("REFUSED"), 0, 10);
    lead("malloc", take, (void **)&real_malloc);
    lead("realloc", retake, (void **)&real_realloc);
    lead("calloc", take_zeros, (void **)&real_calloc);
    lead("memalign", take_memalign, (void **)&real_memalign);
    lead("aligned_alloc", take_aligned, (void **)&real_aligned);
    lead("posix_memalign", take_posix, (void **)&real_posix);
    calls = 0;
}
"""


class Runner:
    """Runs the program over these words in this folder, refusing an allocation."""

    def __init__(self, program, library, words, folder):
        self.program, self.library, self.words, self.folder = program, library, words, folder

    def run(self, refused):
        """The status, what was written, the message, and whether an allocation was refused."""
        with tempfile.TemporaryFile() as told:
            environment = dict(os.environ, LD_PRELOAD=self.library, REFUSED=str(refused), ASAN_OPTIONS="detect_leaks=0")
            done = subprocess.run([self.program] + self.words, cwd=self.folder, env=environment, capture_output=True, timeout=600,
                                  preexec_fn=lambda: os.dup2(told.fileno(), 9), close_fds=False)
            told.seek(0)
            return done.returncode, done.stdout, done.stderr, told.read(1) == b"r"


def try_run(name, runner, step, wanted):
    """Refuses the allocations of one run in turn; whether each run ended as it has to."""
    status, output, message, _ = runner.run(0)
    if wanted and (status, output) != wanted:
        print(f"{name}: without a refusal the status is {status}, and what is written isn't what is wanted")
        return False
    if status not in range(8):
        print(f"{name}: without a refusal the run ends with {status}")
        return False
    whole = starved = wrong = 0
    number = 1
    while True:
        ended, got, said, was_refused = runner.run(number)
        if not was_refused:
            break
        if (ended, got, said) == (status, output, message):
            whole += 1
        elif (ended, said) in (NO_MEMORY, (NO_MEMORY[0], b"")) and output.startswith(got):
            starved += 1
        else:
            wrong += 1
            how = signal.Signals(-ended).name if ended < 0 else f"status {ended}"
            print(f"{name}, allocation {number}: {how}, {len(got)} bytes: {said[:200]!r}")
        number += step
    print(f"{name}: {whole + starved + wrong} allocations refused: {whole} wrote all, {starved} ended with want of memory, {wrong} otherwise", flush=True)
    return not wrong and whole + starved > 0


def case_of(family, name):
    with open(f"{HOME}/crates/case_runs/data/{family}.jsonl", encoding="ascii") as file:
        return next(case for case in map(json.loads, file) if case["name"] == name)


def words_of_command_line():
    parser = argparse.ArgumentParser(description=__doc__, formatter_class=argparse.RawDescriptionHelpFormatter)
    parser.add_argument("program", nargs="?", default=f"{HOME}/crates/vfault/out/vfault", metavar="PROGRAM")
    parser.add_argument("--step", type=int, default=1, metavar="N")
    parser.add_argument("--run", default="", metavar="NAME")
    parser.add_argument("--list", action="store_true")
    words = sys.argv[1:]
    at = words.index("--") if "--" in words else len(words)
    return parser.parse_args(words[:at]), words[at + 1:]


def main():
    given, own = words_of_command_line()
    chosen = [(family, name) for family, name in RUNS if given.run in f"{family}: {name}"]
    if given.list:
        print("\n".join(f"{family}: {name}" for family, name in RUNS))
        return 0
    program = os.path.realpath(given.program)
    right = bool(own or chosen)
    with tempfile.TemporaryDirectory() as work:
        with open(f"{work}/refuse.c", "w", encoding="ascii") as file:
            file.write(LIBRARY)
        subprocess.run(["cc", "-shared", "-fPIC", "-O1", "-o", f"{work}/refuse.so", f"{work}/refuse.c", "-ldl"], check=True)
        if own:
            return 0 if try_run(" ".join(own), Runner(program, f"{work}/refuse.so", own, os.getcwd()), given.step, None) else 1
        for number, (family, name) in enumerate(chosen):
            case = case_of(family, name)
            folder = f"{work}/{number}"
            os.mkdir(folder)
            for file_name, content in case["files"].items():
                with open(f"{folder}/{file_name}", "wb") as file:
                    file.write(content.encode("latin-1"))
            runner = Runner(program, f"{work}/refuse.so", case["args"], folder)
            right = try_run(f"{case['args'][0]} {name}", runner, given.step, (case["status"], case["stdout"].encode("latin-1"))) and right
    return 0 if right else 1


if __name__ == "__main__":
    sys.exit(main())
