#!/usr/bin/env python3
"""Times the program beside what a user would build instead: bench/peers_bench.py [SIZE..]

Each SIZE is a number of registers of the generated design (`soak 5 SIZE WORKERS`); without any: 64 250 1000 2000. All its faults are graded
- by the program with 1, 2 and 4 workers. Of more than --own-most faults (9000) only --own-some (1000), spread over the list, are listed in a plan for `grade`, and the time
  is what all would take: that of an empty list, and the rest by the number of faults;
- by Verilator, where `verilator` is installed: the design is compiled once, with a multiplexer at each site that a fault number steers, and a loop over the faults
  (`peers_harness.cpp`) runs each from its reset through 32 edges and stops at the first difference. It has two values and one order, and finds no races;
- by Icarus, where `iverilog` is installed: a run of its own for each fault, with the fault written into the text and compiled. Of more than --icarus-most faults (600)
  only --icarus-some (30) are run, and the time is what all would take at that pace.
A time by a part of the faults stands behind a `~`, and so does the memory that such runs take.

The first table has the times, the second what follows from them, the third the totals of all three. Totals of all faults have to be equal, but for what a peer can't
say: what is a race or a loop to the program comes under some other word in a peer, which takes one order; what is possible is detected or undetected in Verilator,
which has two values. The generated design has neither. With --lines each line of the report (`grade` of the same design as a text) is compared with each peer's verdict and
its strobe too, for lines with a verdict; of a part of the faults this is always done. What differs is printed, and the status is then 1.

After that come the counter of `examples/counter` and `check` of the generated text of 4000 registers, unless --no-others is given.

--program FILE takes another program than that of the repository (crates/vfault/out/vfault; ./run builds it). --runs N: how often the program and the compiled loop
are run (3); the least time counts, and what took over 10 s isn't run again. --processor-time has seconds of processor time, of all threads together, in place of the
clock's. Times say something only beside the machine and its load, which are printed first.
"""
import argparse
import collections
import os
import shutil
import subprocess
import sys
import tempfile
import time

import grade_bench

HARNESS = os.path.join(os.path.dirname(os.path.abspath(__file__)), 'peers_harness.cpp')
EDGES = 32
WORKERS = (1, 2, 4)

Run = collections.namedtuple('Run', 'seconds megabytes wrote')


class Runner:
    """Runs programs, by the clock or by processor time."""

    def __init__(self, runs, by_processor):
        self.runs, self.by_processor = runs, by_processor

    def once(self, words, folder=None):
        with tempfile.TemporaryFile() as wrote:
            began = time.perf_counter()
            process = subprocess.Popen(words, cwd=folder, stdout=wrote)
            _, status, used = os.wait4(process.pid, 0)
            took = time.perf_counter() - began
            process.returncode = os.waitstatus_to_exitcode(status)
            if process.returncode:
                raise SystemExit('%s: status %d' % (' '.join(words), process.returncode))
            wrote.seek(0)
            seconds = used.ru_utime + used.ru_stime if self.by_processor else took
            return Run(seconds, used.ru_maxrss / 1024, wrote.read().decode())

    def least(self, words, folder=None):
        """The run of the least time; one that takes long isn't repeated."""
        best = self.once(words, folder)
        for _ in range(self.runs - 1):
            if best.seconds < 10:
                best = min(best, self.once(words, folder))
        return best


# The design and its faults


def sites_of(size):
    """The sites in the order of the harness: the clock, then of each row its register, its net and the gate's inputs."""
    return ['clk'] + [name % i for i in range(size) for name in ('r%d', 'w%d', 'g%d.1', 'g%d.2')]


def faults_of(size):
    return [(site, value) for site in sites_of(size) for value in (0, 1)]


def spread(faults, some):
    """So many of the faults, from all over the list."""
    return [faults[len(faults) * i // some] for i in range(some)]


def rows_of(size):
    """The rows of the generated design: a gate's kind, the registers that it reads, and what its own register holds at first."""
    source = grade_bench.draws(5)
    return [(grade_bench.KINDS[next(source) % 6], next(source) % size, next(source) % size, next(source) % 2) for _ in range(size)]


def steered(size):
    """The design with a multiplexer at each site: fault number 2 * site + value, as faults_of has them."""
    operators = {'and': ('&', ''), 'nand': ('&', '~'), 'or': ('|', ''), 'nor': ('|', '~'), 'xor': ('^', ''), 'xnor': ('^', '~')}
    watched = min(8, size)
    lines = ['module top(input clk, input reset, input [31:0] fault, output [%d:0] watched);' % (watched - 1)]

    def site(number, name, value):
        lines.append("wire %s = fault == %d ? 1'b0 : fault == %d ? 1'b1 : %s;" % (name, 2 * number, 2 * number + 1, value))

    site(0, 'clock', 'clk')
    for i, (kind, one, other, first) in enumerate(rows_of(size)):
        operator, inverted = operators[kind]
        lines.append('reg q%d;' % i)
        site(4 * i + 1, 'r%d' % i, 'q%d' % i)
        site(4 * i + 3, 'a%d' % i, 'r%d' % one)
        site(4 * i + 4, 'b%d' % i, 'r%d' % other)
        site(4 * i + 2, 'w%d' % i, '%s(a%d %s b%d)' % (inverted, i, operator, i))
        lines.append("always @(posedge clock or posedge reset) if (reset) q%d <= 1'b%d; else q%d <= w%d;" % (i, first, i, i))
    lines.append('assign watched = {%s};' % ', '.join('r%d' % i for i in range(size - watched, size)))
    lines.append('endmodule')
    return '\n'.join(lines) + '\n'


# What each says of the faults: a verdict of each fault, in the report's words


def grade(bench, faults, workers, given, runner):
    """The least run of `grade` with these faults listed, and its verdicts."""
    plan = bench.plan.replace('faults all\n', ''.join('fault %s %d\n' % fault for fault in faults))
    with tempfile.TemporaryDirectory() as folder:
        for name, text in (('design.v', bench.text), ('plan.txt', plan)):
            with open(os.path.join(folder, name), 'w') as file:
                file.write(text)
        run = runner.least([given.program, 'grade', 'design.v', 'plan.txt', bench.top, str(workers)], folder)
    lines = [line.split() for line in run.wrote.splitlines()[1:-1]]
    return run, {(site, int(held[-1])): told for site, held, *told in lines}


def run_part(size, given, runner):
    """What all faults would take by each number of workers, by a part of them, and the verdicts of these."""
    bench, faults = grade_bench.pipeline(size), faults_of(size)
    some = spread(faults, given.own_some)
    fixed = grade(bench, [], 1, given, runner)[0].seconds
    runs = []
    for workers in WORKERS:
        run, verdicts = grade(bench, some, workers, given, runner)
        runs.append(run._replace(seconds=fixed + (run.seconds - fixed) * len(faults) / len(some)))
    return runs, verdicts


def run_verilator(size, runner):
    """Building the loop over all faults, a run of it, and its verdicts."""
    with tempfile.TemporaryDirectory() as folder:
        with open(os.path.join(folder, 'top.v'), 'w') as file:
            file.write(steered(size))
        with open(os.path.join(folder, 'harness.cpp'), 'w') as file:
            file.write('#define EDGES %d\n#define FAULTS %d\n%s' % (EDGES, len(faults_of(size)), open(HARNESS).read()))
        words = ['verilator', '-Wno-fatal', '-Wno-lint', '-O3', '--x-initial', '0', '--cc', 'top.v', '--exe', 'harness.cpp', '--build', '-CFLAGS', '-O2']
        built = runner.once(words, folder)
        ran = runner.least([os.path.join(folder, 'obj_dir', 'Vtop')])
    strobes = grade_bench.pipeline(size).strobes()
    edges = [int(word) for word in ran.wrote.split()]
    return built.seconds, ran.seconds, {fault: ['detected', str(strobes[edge])] if edge >= 0 else ['undetected'] for fault, edge in zip(faults_of(size), edges)}


def run_icarus(size, given):
    """What all faults take, or would take at the pace of those that were run, and the verdicts of these."""
    bench, faults, verdicts = grade_bench.pipeline(size), faults_of(size), {}
    some = faults if len(faults) <= given.icarus_most else spread(faults, given.icarus_some)
    with tempfile.TemporaryDirectory() as folder:
        good, _, _ = grade_bench.run_icarus(bench, bench.text, folder)
        began = time.perf_counter(), os.times()
        for site, value in some:
            seen, _, _ = grade_bench.run_icarus(bench, bench.faulty(bench.text, site, value), folder)
            verdicts[site, value] = grade_bench.verdict(bench, good, seen)
        ended = time.perf_counter(), os.times()
    used = sum(getattr(ended[1], part) - getattr(began[1], part) for part in ('children_user', 'children_system'))
    took = used if given.processor_time else ended[0] - began[0]
    return took * len(faults) / len(some), verdicts


# The tables


def counted(verdicts):
    """The totals, as the report words them."""
    kinds = collections.Counter(told[0] for told in verdicts.values())
    return ' '.join('%s %d' % (kind, kinds[kind]) for kind in ('detected', 'possible', 'undetected', 'race', 'hyper'))


def differences(size, name, peer, own):
    """The lines in which a peer differs from the program, of those that both have and that the program gives a verdict."""
    return ['%d registers, %s sa%d: %s, %s %s' % (size, *fault, ' '.join(own[fault]), name, ' '.join(told))
            for fault, told in peer.items() if fault in own and own[fault][0] not in ('race', 'hyper') and own[fault] != told]


class Row:
    """What was measured of one size."""

    def __init__(self, size, given, runner):
        self.size, self.faults, self.totals, self.differ, own = size, len(faults_of(size)), {}, [], {}
        self.part = self.faults > given.own_most
        if self.part:
            self.runs, own = run_part(size, given, runner)
        else:
            self.runs = [runner.least([given.program, 'soak', '5', str(size), str(workers)]) for workers in WORKERS]
            outputs = {run.wrote.split(None, 2)[2].strip() for run in self.runs}
            self.totals['vfault'] = ' and '.join(sorted(outputs))
        if given.lines and not own:
            own = grade(grade_bench.pipeline(size), faults_of(size), 4, given, runner)[1]
        self.built = self.ran = self.icarus = None
        peers = {}
        if shutil.which('verilator') and not given.no_verilator:
            self.built, self.ran, peers['Verilator'] = run_verilator(size, runner)
        if shutil.which('iverilog') and not given.no_icarus:
            self.icarus, peers['Icarus'] = run_icarus(size, given)
        for name, verdicts in peers.items():
            self.differ += differences(size, name, verdicts, own)
            if len(verdicts) == self.faults:
                self.totals[name] = counted(verdicts)
        if len(set(self.totals.values())) > 1:
            self.differ.append('%d registers: %s' % (size, self.totals))
        self.sampled = 'Icarus' in peers and 'Icarus' not in self.totals

    def times(self):
        about = '~' if self.part else ''
        cells = ['%s%.2f s' % (about, run.seconds) for run in self.runs]
        cells += ['%.1f s' % self.built, '%.3f s' % self.ran] if self.built else ['-', '-']
        cells.append('-' if self.icarus is None else '%s%.0f s' % ('~' if self.sampled else '', self.icarus))
        return cells + [about + ', '.join('%.0f' % run.megabytes for run in self.runs) + ' MB']

    def ratios(self):
        one = self.runs[0].seconds
        cells = ['%.2f' % ((self.built + self.ran) / one), '%.4f' % (self.ran / one)] if self.built else ['-', '-']
        cells.append('-' if self.icarus is None else '%.0f' % (self.icarus / one))
        return cells + ['%.2f ms' % (1000 * one / self.faults), '%.2f' % (one / self.runs[1].seconds), '%.2f' % (one / self.runs[2].seconds)]


def table(heads, rows):
    print('\n| %s |\n%s' % (' | '.join(heads), '|---' * len(heads) + '|'))
    for row in rows:
        print('| %s |' % ' | '.join(str(cell) for cell in row))


def print_others(given, runner):
    counter = runner.least([given.program, 'grade', 'design.v', 'plan.txt', 'tb', '1'], grade_bench.COUNTER)
    with tempfile.TemporaryDirectory() as folder:
        with open(os.path.join(folder, 'design.v'), 'w') as file:
            file.write(grade_bench.pipeline(4000).text)
        check = runner.least([given.program, 'check', 'design.v', 'top'], folder)
    print('\nthe counter, 1 worker: %.3f s, %.0f MB; check of 4000 registers: %.3f s, %.0f MB' % (counter.seconds, counter.megabytes, check.seconds, check.megabytes))


def options():
    known = argparse.ArgumentParser(description=__doc__, formatter_class=argparse.RawDescriptionHelpFormatter)
    known.add_argument('sizes', nargs='*', type=int, default=[64, 250, 1000, 2000])
    known.add_argument('--program', default=grade_bench.PROGRAM)
    known.add_argument('--runs', type=int, default=3)
    for flag, usual in (('--own-most', 9000), ('--own-some', 1000), ('--icarus-most', 600), ('--icarus-some', 30)):
        known.add_argument(flag, type=int, default=usual)
    for flag in ('--no-icarus', '--no-verilator', '--no-others', '--lines', '--processor-time'):
        known.add_argument(flag, action='store_true')
    return known.parse_args()


def main():
    given = options()
    given.program = os.path.abspath(given.program)
    if not os.access(given.program, os.X_OK):
        raise SystemExit('no program at %s: ./run builds it' % given.program)
    runner = Runner(given.runs, given.processor_time)
    print('load before: %s, processors: %d' % (' '.join('%.1f' % load for load in os.getloadavg()), os.cpu_count()), flush=True)
    rows = []
    for size in given.sizes:
        rows.append(Row(size, given, runner))
        print('%d registers: %s' % (size, ', '.join(rows[-1].times())), flush=True)
    table(['registers', 'faults', '1 worker', '2', '4', 'Verilator, building', 'Verilator, running', 'Icarus', 'memory'], [[row.size, row.faults, *row.times()] for row in rows])
    table(['registers', 'Verilator with its build by vfault', 'its run alone by vfault', 'Icarus by vfault', 'a fault', '1 worker by 2', '1 worker by 4'],
          [[row.size, *row.ratios()] for row in rows])
    table(['registers', 'who', 'totals'], [[row.size, name, totals] for row in rows for name, totals in row.totals.items()])
    if not given.no_others:
        print_others(given, runner)
    differ = [line for row in rows for line in row.differ]
    print('\n' + ('\n'.join('DIFFERS: ' + line for line in differ) or 'nothing differs'))
    return 1 if differ else 0


if __name__ == '__main__':
    sys.exit(main())
