#!/usr/bin/env python3
"""Times the program by several numbers of workers: bench/workers_bench.py [SIZE..]

Each SIZE is a number of registers of the generated design (`soak 5 SIZE WORKERS`); without any: 64. The counter of `examples/counter` is timed as well.
--program FILE takes another program than that of the repository (crates/vfault/out/vfault; ./run builds it).
--workers 1,2,4 tells the numbers of workers, --runs N how often each is run; the least time counts.

The outputs of one design have to be equal for all numbers of workers, else the last line says so and the status is 1.
"""
import argparse
import os
import subprocess
import sys
import time

HERE = os.path.dirname(os.path.abspath(__file__))
PROGRAM = os.path.join(HERE, '..', 'crates', 'vfault', 'out', 'vfault')
COUNTER = os.path.join(HERE, '..', 'examples', 'counter')


def words_of(name, workers):
    """The words of the command line for a design."""
    if name == 'counter':
        return ['grade', os.path.join(COUNTER, 'design.v'), os.path.join(COUNTER, 'plan.txt'), 'tb', str(workers)]
    return ['soak', '5', name, str(workers)]


def timed(program, words, runs):
    """The least time of so many runs, and what they wrote."""
    least, outputs = None, set()
    for _ in range(runs):
        began = time.perf_counter()
        done = subprocess.run([program] + words, stdout=subprocess.PIPE, check=True)
        took = time.perf_counter() - began
        least = took if least is None else min(least, took)
        outputs.add(done.stdout)
    return least, outputs


def main():
    parser = argparse.ArgumentParser(description=__doc__, formatter_class=argparse.RawDescriptionHelpFormatter)
    parser.add_argument('sizes', nargs='*', default=['64'])
    parser.add_argument('--program', default=PROGRAM)
    parser.add_argument('--workers', default='1,2,4')
    parser.add_argument('--runs', type=int, default=3)
    given = parser.parse_args()
    numbers = [int(number) for number in given.workers.split(',')]
    print('load %s, %d processors' % (' '.join('%.2f' % part for part in os.getloadavg()), os.cpu_count()))
    print('| design | ' + ' | '.join('%d workers' % number if number > 1 else '1 worker' for number in numbers) + ' |')
    print('|---' * (len(numbers) + 1) + '|')
    same = True
    for name in given.sizes + ['counter']:
        times, outputs = [], set()
        for number in numbers:
            took, wrote = timed(given.program, words_of(name, number), given.runs)
            times.append('%.2f s' % took)
            outputs |= wrote
        same = same and len(outputs) == 1
        title = 'counter with an adder' if name == 'counter' else '`soak 5 %s`' % name
        print('| %s | %s |' % (title, ' | '.join(times)))
    print('the outputs are equal' if same else 'the outputs DIFFER')
    return 0 if same else 1


if __name__ == '__main__':
    sys.exit(main())
