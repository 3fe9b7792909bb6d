#!/usr/bin/env python3
"""Makes the cases of the examples, which the program `case_runs` of the gate runs: examples/cases.py [--check]

Each line of a file `runs` and of a table of messages becomes a line of crates/case_runs/data/examples.jsonl, with the files that it
reads and what is wanted of it. With --check nothing is written: the status is 1 where the file isn't what would be written.
"""
import json
import os
import sys

HERE = os.path.dirname(os.path.abspath(__file__))
CASES = os.path.join(HERE, '..', 'crates', 'case_runs', 'data', 'examples.jsonl')
# The design over which the plans of messages/plans.txt are read.
PLANS_DESIGN = 'module top; reg [1:0] q = 0; initial #10 q = 1; endmodule\n'


def content(*path):
    with open(os.path.join(HERE, *path), encoding='latin-1', newline='') as file:
        return file.read()


def case(name, words, files, status, wanted):
    """A case whose output or message is the wanted text."""
    return {'name': name, 'args': words, 'files': files, 'stdout': wanted if status == 0 else '',
            'stderr': '' if status == 0 else wanted, 'status': status}


def cases_of_runs(folder):
    """A case for each line of a folder's file `runs`: a status, the file with what is written, and the words."""
    for line in content(folder, 'runs').splitlines():
        status, wanted, *words = line.split(' ')
        files = {word: content(folder, word) for word in words if os.path.isfile(os.path.join(HERE, folder, word))}
        yield case('%s: %s' % (folder, ' '.join(words)), words, files, int(status), content(folder, wanted))


def cases_of_messages():
    """A case for each text of the two tables of messages; a plan's lines are parted by ` / `."""
    for line in content('messages', 'designs.txt').splitlines():
        text, message = line.split(' => ')[0], line.split(' => ')[-1]
        yield case('messages: ' + line, ['check', 'design.v', 'top'], {'design.v': text + '\n'}, 1, message + '\n')
    for line in content('messages', 'plans.txt').splitlines():
        text, message = line.split(' => ')[0], line.split(' => ')[-1]
        files = {'design.v': PLANS_DESIGN, 'plan.txt': text.replace(' / ', '\n') + '\n'}
        yield case('messages: ' + line, ['grade', 'design.v', 'plan.txt', 'top', '1'], files, 1, message + '\n')


def all_cases():
    for folder in sorted(os.listdir(HERE)):
        if os.path.isfile(os.path.join(HERE, folder, 'runs')):
            yield from cases_of_runs(folder)
    yield from cases_of_messages()


def main(words):
    text = ''.join(json.dumps(one) + '\n' for one in all_cases())
    if words == ['--check']:
        same = os.path.isfile(CASES) and open(CASES, encoding='ascii').read() == text
        print('examples: the cases are %s' % ('as written' if same else 'not as written: run examples/cases.py'))
        return 0 if same else 1
    with open(CASES, 'w', encoding='ascii') as file:
        file.write(text)
    return 0


if __name__ == '__main__':
    sys.exit(main(sys.argv[1:]))
