#!/usr/bin/env python3
"""Makes what the program `window_cases` of the gate has to print: bench/window_cases.py FOLDER [--check]

It traces the first runs of an independent model of the language, which isn't part of this repository: FOLDER holds it as the package `model`. For each name of
crates/window_cases/data/names it takes the design and the plan there, and writes the lines of their windows to crates/window_cases/stdout. With --check nothing
is written: the status is 1 where the file isn't what would be written.
"""
import os
import sys

HERE = os.path.dirname(os.path.abspath(__file__))
CRATE = os.path.join(HERE, '..', 'crates', 'window_cases')
MOST_SLOTS, FULL_STEPS = 64, 200000
TOUCHING = {'read', 'write', 'net'}
CHANGING = {'write', 'net'}


class Window:
    """The slots of a window: its events by their numbers, its phases, the process runs, the blocks and the waits that events end."""

    def __init__(self, machine, begins):
        self.begins = self.ends = begins
        self.first = list(machine.values)
        self.stages = [stage_of(machine, process) for process in range(len(machine.state))]
        self.moments = self.phases = self.steps = 0
        self.touches = [set() for _ in self.first]       # object -> moments
        self.changes = [[] for _ in self.first]          # object -> (moment, value)
        self.runs = [[0, 0, 0] for _ in self.stages]     # process -> runs, updates written, updates appended
        self.blocks, self.phase_ends = [], []            # moments
        self.wakes = []                                  # (moment, process)

    def value_at(self, place, moment):
        earlier = [value for at, value in self.changes[place] if at < moment]
        return earlier[-1] if earlier else self.first[place]

    def lines(self, design):
        yield 'window %d %d %s: %d moments, %d phases' % (self.begins, self.ends, self.ending, self.moments, self.phases)
        yield 'blocks %d, moments %d, phase ends %d' % (len(self.blocks), sum(self.blocks), sum(self.phase_ends))
        yield 'wakes %d, moments %d, processes %d' % (len(self.wakes), sum(moment for moment, _ in self.wakes), sum(process for _, process in self.wakes))
        for place, item in enumerate(design.objects):
            values = ' '.join(self.value_at(place, moment) for moment in (0, self.moments // 2, self.moments))
            yield 'object %d %s %s, %d touches' % (place, item.name.split('[')[0], values, len(self.touches[place]))
        for process, stage in enumerate(self.stages):
            yield 'process %d %s, %d runs, %d written, %d appended' % (process, stage, *self.runs[process])


def ending_of(design, outcome, going):
    """How a window ends behind a slot of an outcome: another slot comes or none, or that slot has a race, as a report writes it."""
    if outcome != 'fine':
        pair = outcome[1]
        words = ['%s %s p%d l%d' % (one.kind, design.objects[one.obj].name.split('[')[0], one.process, one.line) for one in (pair.first, pair.second)]
        return 'raced %d.%d %s' % (pair.time, pair.phase, ' '.join(words))
    return 'open' if going else 'through'


def stage_of(machine, process):
    if machine.state[process] == 'asleep':
        return 'asleep until %d' % machine.wakes[process]
    return machine.state[process]


def traced(model):
    """The model's machine, which notes its events in a window."""
    request = model.process

    class Traced(model.machine.Machine):
        window = None

        def begin(self, begins):
            self.window, self.running = Window(self, begins), set()
            self.at_phase_end = lambda: self.window.phase_ends.append(self.window.moments)

        def do(self, event):
            kind, number = event
            step = self.request[number] if kind == 'step' else None
            before = len(self.phase.raw)
            window = self.window
            if not (self.marked or self.pending or self.running):
                window.blocks.append(window.moments)
            super().do(event)
            for access in self.phase.raw[before:]:
                if access.kind in TOUCHING:
                    window.touches[access.obj].add(window.moments)
                if access.kind in CHANGING:
                    window.changes[access.obj].append((window.moments, self.values[access.obj]))
            window.moments += 1
            if step:
                self.note_step(number, step)

        def note_step(self, process, step):
            counts = self.window.runs[process]
            if process not in self.running:
                self.running.add(process)
                counts[0] += 1
            counts[1] += step[0] == request.WRITE
            counts[2] += step[0] == request.LATER
            if process not in self.ready:
                self.running.discard(process)

        def wake(self, event, process, entry):
            self.window.wakes.append((self.window.moments, process))
            super().wake(event, process, entry)

        def first_slot(self):
            outcome = super().first_slot()
            self.window.phases += self.phase.number
            self.window.steps += self.steps
            self.window.ends += 1
            return outcome

    return Traced


def good_run(model, design, plan):
    """How many slots of the good first run may stand in windows, and how it ends."""
    machine = model.machine.Machine(design)
    count = 0
    while True:
        outcome = machine.first_slot()
        if outcome == 'hyper':
            return count, 'loops %d' % machine.time
        count += 1
        later = machine.next_time()
        if outcome != 'fine' or later is None or later > plan.end:
            return count, 'over'
        machine.next_slot()


def windows(model, design, end, count):
    """The windows of so many slots; the first slot is a window of its own."""
    machine = traced(model)(design)
    machine.begin(0)
    for number in range(1, count + 1):
        outcome = machine.first_slot()
        later = machine.next_time()
        window = machine.window
        window.ending = ending_of(design, outcome, later is not None and later <= end)
        if number in (1, count) or number - window.begins == MOST_SLOTS or window.steps >= FULL_STEPS:
            yield window
            machine.begin(number)
        if number < count:
            machine.next_slot()


def case_lines(model, name):
    texts = [open(os.path.join(CRATE, 'data', name + ending), 'rb').read() for ending in ('.v', '.plan')]
    design = model.cli.elaborate(model.cli.parse(model.cli.scan(texts[0])), 'top', False)
    plan = model.cli.read_plan(texts[1], model.cli.Sites(design))
    count, last = good_run(model, design, plan)
    yield '--- ' + name
    for window in windows(model, design, plan.end, count):
        yield from window.lines(design)
    yield last


def main(words):
    sys.path.insert(0, words[0])
    import model.cli
    import model.machine
    import model.process
    names = open(os.path.join(CRATE, 'data', 'names'), encoding='ascii').read().split()
    text = ''.join(line + '\n' for name in names for line in case_lines(model, name))
    path = os.path.join(CRATE, 'stdout')
    if words[1:] == ['--check']:
        same = os.path.isfile(path) and open(path, encoding='ascii').read() == text
        print('window_cases: stdout is %s' % ('as the model has it' if same else 'not as the model has it'))
        return 0 if same else 1
    with open(path, 'w', encoding='ascii') as file:
        file.write(text)
    return 0


if __name__ == '__main__':
    sys.exit(main(sys.argv[1:]))
