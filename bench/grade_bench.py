#!/usr/bin/env python3
"""Times the program over whole designs, and beside it Icarus Verilog with one run for each fault: bench/grade_bench.py [WORD..]

A WORD is a number of registers of the generated pipeline, or `counter`; without any: 64 250 counter.
--program FILE takes another program than that of the repository (crates/vfault/out/vfault; ./run builds it).
--no-icarus leaves Icarus out, also where `iverilog` is installed. --workers N gives the program N workers.

Icarus gets the design with the fault written into its text, compiles it and runs it, with the watched bits printed at the strobes. So its verdicts are
compared as well. The last column counts the lines that agree, of those with a verdict.
"""
import argparse
import os
import re
import shutil
import subprocess
import tempfile
import time

HERE = os.path.dirname(os.path.abspath(__file__))
PROGRAM = os.path.join(HERE, '..', 'crates', 'vfault', 'out', 'vfault')
COUNTER = os.path.join(HERE, '..', 'examples', 'counter')
KINDS = ['and', 'nand', 'or', 'nor', 'xor', 'xnor']


class Bench:
    """A design with its plan, and how a fault is written into its text."""

    def __init__(self, name, top, text, watched, first, step, last, faulty):
        self.name, self.top, self.text, self.watched, self.faulty = name, top, text, watched, faulty
        self.first, self.step, self.last = first, step, last
        self.plan = 'end %d\n%sstrobe %d %d %d\nfaults all\n' % (
            last + 2, ''.join('watch %s\n' % name for name in watched), first, step, last)

    def strobes(self):
        return range(self.first, self.last + 1, self.step)

    def testbench(self):
        """A module that prints the watched bits at each strobe, after all that happens at that time."""
        bits = ', '.join('%s.%s' % (self.top, name) for name in self.watched)
        return ('module tester;\n  initial begin\n    #%d;\n    repeat (%d) begin $strobe("%s", %s); #%d; end\n'
                '    $finish;\n  end\nendmodule\n' % (self.first, len(self.strobes()), '%b' * len(self.watched), bits, self.step))


# The generated pipeline: each register takes a gate of two registers at the clock's edge


def draws(number):
    """The upper halves of a linear congruence's numbers, without end."""
    while True:
        number = (1664525 * number + 1013904223) % 2 ** 32
        yield number // 65536


def pipeline(size):
    source = draws(5)
    rows = [(KINDS[next(source) % 6], next(source) % size, next(source) % size, next(source) % 2) for _ in range(size)]
    lines = ['module top;', 'reg clk = 0;', 'always #5 clk = ~clk;']
    lines += ['reg r%d = %d;' % (i, row[3]) for i, row in enumerate(rows)]
    for i, (kind, one, other, _) in enumerate(rows):
        lines += ['wire w%d;' % i, '%s g%d(w%d, r%d, r%d);' % (kind, i, i, one, other), 'always @(posedge clk) r%d <= w%d;' % (i, i)]
    lines.append('endmodule')
    watched = ['r%d' % i for i in range(max(0, size - 8), size)]
    return Bench('pipeline of %d' % size, 'top', '\n'.join(lines) + '\n', watched, 8, 10, 318, faulty_pipeline)


def faulty_pipeline(text, site, value):
    if site == 'clk':
        return text.replace('reg clk = 0;', 'reg clk = %d;' % value).replace('always #5 clk = ~clk;\n', '')
    kind, number = site[0], re.match(r'\w(\d+)', site).group(1)
    if kind == 'r':
        text = re.sub(r'reg r%s = .;' % number, 'reg r%s = %d;' % (number, value), text)
        return re.sub(r'always @\(posedge clk\) r%s <= .*\n' % number, '', text)
    gate = re.search(r'\w+ g%s\(.*\);' % number, text).group(0)
    if kind == 'w':
        return text.replace(gate, 'assign w%s = %d;' % (number, value))
    return text.replace(gate, with_terminal(gate, int(site.split('.')[1]), value))


def with_terminal(gate, terminal, value):
    """A gate with an input terminal, counted from 1, held."""
    head, inside = gate.rstrip(');').split('(')
    parts = [part.strip() for part in inside.split(',')]
    parts[terminal] = "1'b%d" % value
    return '%s(%s);' % (head, ', '.join(parts))


# The counter with an adder of gates, of the examples


def counter():
    text = open(os.path.join(COUNTER, 'design.v')).read()
    text = re.sub(r'\n *\$monitor.*', '', text).replace('#1980 $finish;', '')
    return Bench('counter', 'tb', text, ['count', 'sum', 'cout'], 8, 10, 1998, faulty_counter)


def faulty_counter(text, site, value):
    held = "1'b%d" % value
    if site == 'clk':
        text = text.replace('reg clk, rst;', 'reg rst; reg clk = %s;' % held)
        return text.replace('initial clk = 0;', '').replace('always #5 clk = ~clk;', '')
    if site == 'rst':
        text = text.replace('reg clk, rst;', 'reg clk; reg rst = %s;' % held)
        return text.replace('rst = 1;', ';').replace('#20 rst = 0;', ';')
    bit = re.fullmatch(r'(count|sum|add\.a|add\.b)\[(\d+)\]', site)
    if bit:
        return with_bit(text, bit.group(1), int(bit.group(2)), held)
    return with_adder(text, site, held)


def with_bit(text, name, bit, held):
    if name == 'count':
        text = text.replace('always @(posedge clk)', 'initial count[%d] = %s;\n  always @(posedge clk)' % (bit, held))
        mask = "16'd%d" % (1 << bit)
        return re.sub(r'count <= ([^;]*);', lambda match: 'count <= ((%s) & ~%s) | (%s ? %s : 0);' % (match.group(1), mask, held, mask), text)
    if name == 'sum':
        return text.replace('.s(s[%d])' % bit, '.s()').replace('wire c0, c1, c2;', 'wire c0, c1, c2;\n  assign s[%d] = %s;' % (bit, held))
    port = name[-1]
    return text.replace('.%s(%s[%d])' % (port, port, bit), '.%s(%s)' % (port, held))


def with_adder(text, site, held):
    """One full adder with a fault of its own, as a module of its own."""
    carries = {'add.c0': 'add.f0.co', 'add.c1': 'add.f1.co', 'add.c2': 'add.f2.co', 'cout': 'add.f3.co'}
    parts = carries.get(site, site).split('.')[1:]
    module = re.search(r'module fa\(.*?endmodule\n', text, re.S).group(0)
    faulty = module.replace('module fa(', 'module faulty(')
    if len(parts) == 3:
        gate = re.search(r'\w+ %s\(.*\);' % parts[1], faulty).group(0)
        faulty = faulty.replace(gate, with_terminal(gate, int(parts[2]), int(held[-1])))
    elif parts[1] in ('a', 'b', 'ci'):
        faulty = re.sub(r'((?:xor|and|or) .*)', lambda match: re.sub(r'\b%s(?=[,)])' % parts[1], held, match.group(1)), faulty)
    else:
        faulty = re.sub(r'\w+ \w+\(%s, .*\);' % parts[1], 'assign %s = %s;' % (parts[1], held), faulty)
    return text.replace(module, module + faulty).replace('fa %s(' % parts[0], 'faulty %s(' % parts[0])


# Runs


def seconds(number):
    return '-' if number is None else '%.2f s' % number


def run_program(program, bench, folder, workers):
    """The report's lines of faults, and the time."""
    for name, text in (('design.v', bench.text), ('plan.txt', bench.plan)):
        with open(os.path.join(folder, name), 'w') as file:
            file.write(text)
    begin = time.perf_counter()
    done = subprocess.run([program, 'grade', 'design.v', 'plan.txt', bench.top, str(workers)], cwd=folder, capture_output=True, text=True)
    took = time.perf_counter() - begin
    if done.returncode:
        raise SystemExit('%s: status %d, %s' % (bench.name, done.returncode, done.stderr.strip()))
    return [line.split() for line in done.stdout.splitlines()[1:-1]], took


def run_icarus(bench, text, folder):
    """What is seen at each strobe, and the times of the compiler and of the run."""
    source, code = os.path.join(folder, 'icarus.v'), os.path.join(folder, 'icarus.vvp')
    with open(source, 'w') as file:
        file.write(text + bench.testbench())
    begin = time.perf_counter()
    subprocess.run(['iverilog', '-g2001', '-s', bench.top, '-s', 'tester', '-o', code, source], check=True)
    compiled = time.perf_counter()
    out = subprocess.run(['vvp', '-n', code], check=True, capture_output=True, text=True).stdout
    ran = time.perf_counter()
    seen = out.split()
    if len(seen) != len(bench.strobes()):
        raise SystemExit('%s: Icarus printed %d samples: %s' % (bench.name, len(seen), out[:200]))
    return seen, compiled - begin, ran - compiled


def verdict(bench, good, faulty):
    """The verdict by what is seen, as the report words it."""
    possible = None
    for at, one, other in zip(bench.strobes(), good, faulty):
        pairs = [pair for pair in zip(one, other) if pair[0] in '01']
        if any(pair[1] in '01' and pair[0] != pair[1] for pair in pairs):
            return ['detected', str(at)]
        if possible is None and any(pair[1] not in '01' for pair in pairs):
            possible = ['possible', str(at)]
    return possible or ['undetected']


def time_icarus(bench, lines, folder):
    """The times of compiling and running once for each fault, and the lines with a verdict that agree and that don't."""
    good, compiling, running = run_icarus(bench, bench.text, folder)
    agree, differ = 0, []
    for site, held, *told in lines:
        seen, compiled, ran = run_icarus(bench, bench.faulty(bench.text, site, int(held[-1])), folder)
        compiling, running = compiling + compiled, running + ran
        if told[0] in ('race', 'hyper'):
            continue
        if verdict(bench, good, seen) == told:
            agree += 1
        else:
            differ.append('%s %s: %s, Icarus %s' % (site, held, ' '.join(told), ' '.join(verdict(bench, good, seen))))
    return compiling, running, agree, differ


def main():
    options = argparse.ArgumentParser(description=__doc__, formatter_class=argparse.RawDescriptionHelpFormatter)
    options.add_argument('words', nargs='*', default=['64', '250', 'counter'])
    options.add_argument('--program', default=PROGRAM)
    options.add_argument('--workers', type=int, default=1)
    options.add_argument('--no-icarus', action='store_true')
    given = options.parse_args()
    program = os.path.abspath(given.program)
    if not os.access(program, os.X_OK):
        raise SystemExit('no program at %s: ./run builds it' % program)
    icarus = not given.no_icarus and shutil.which('iverilog') and shutil.which('vvp')
    print('load before: %s, processors: %d' % (' '.join('%.1f' % load for load in os.getloadavg()), os.cpu_count()))
    print('\n| design | faults | strobes | vfault | Icarus, compiling | Icarus, running | all of Icarus to vfault | verdicts that agree |')
    print('|---|---|---|---|---|---|---|---|')
    for word in given.words:
        bench = counter() if word == 'counter' else pipeline(int(word))
        with tempfile.TemporaryDirectory() as folder:
            lines, took = run_program(program, bench, folder, given.workers)
            row = [bench.name, str(len(lines)), str(len(bench.strobes())), seconds(took)]
            differ = []
            if icarus:
                compiling, running, agree, differ = time_icarus(bench, lines, folder)
                row += [seconds(compiling), seconds(running), '%.1f' % ((compiling + running) / took), '%d of %d' % (agree, agree + len(differ))]
            else:
                row += ['-'] * 4
        print('| %s |' % ' | '.join(row), flush=True)
        for line in differ:
            print('differs: ' + line)


if __name__ == "__main__":
    main()
