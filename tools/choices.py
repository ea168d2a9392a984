#!/usr/bin/env python3
"""Writes the choices that a report shows, as lines that give the report back.

    tools/choices.py REPORT --text TEXT [--whole]

REPORT is what `./vatbramble run STEPS` or `./vatbramble choose STEPS` printed for the scenario TEXT. A line `choose` is printed for each
step that had a choice: which waiter was woken, the event of which member was taken, in which order held threads were released. The text
with these lines after it is an input of `./vatbramble choose STEPS`, which prints REPORT again. With --whole the text comes first.

The order in which one release queued several threads shows in the later labels that take them, and so does the thread that a cancel
takes of several; where none shows it, any order gives the same report, and that by number is written.

Statuses other than 0: 2 wrong words, or REPORT is no report; 3 TEXT is no scenario; 4 a file can't be read; 5 the report is of another
text, or was changed; 6 TEXT is too long.
"""
import argparse
import sys

import scenario
from machine_state import Misfit, Set
from replay_ops import Run


class Step:
    """What one label has chosen: a waiter, a member's handle, the released threads; and whether there was a choice."""

    def __init__(self):
        self.waiter, self.member, self.batch, self.is_open = None, None, None, False

    def line(self, orders):
        words = ['choose']
        if self.waiter is not None:
            words += ['wake', str(self.waiter)]
        if self.member is not None:
            words += ['member', str(self.member)]
        if self.batch is not None:
            words += ['release', *(str(thread.number) for thread in orders[self.batch])]
        return ' '.join(words)


class Choosing(Run):
    """A run that keeps what each label has chosen."""

    def __init__(self, text):
        super().__init__(text)
        self.steps, self.orders = [], {}
        self.asking, self.is_of_cancel = None, False

    def take_in(self, label):
        self.steps.append(Step())
        super().take_in(label)

    def wake(self, waited):
        waiters, wanted = len(waited.waiters), self.wakes
        super().wake(waited)
        if waiters > 0:
            self.steps[-1].waiter = wanted
            self.steps[-1].is_open |= waiters > 1

    def ask(self, call):
        """A cancel takes one of the threads that wait; which one, shows when that is taken."""
        waiting = self.waiting(call)
        taken = super().ask(call)
        if waiting:
            self.asking = self.steps[-1]
            self.asking.waiter = waiting[0].number
            self.asking.is_open |= len(waiting) > 1
        return taken

    def instead(self, thread, other):
        self.asking.waiter, self.is_of_cancel = other.number, True
        return super().instead(thread, other)

    def event(self, thread, words, waited, by_callback, woken=None, cancellable=False):
        own = thread.call.own
        takes_own = own == 'none' or own == 'cancelled' and (by_callback or cancellable)
        ready = len(waited.ready()) if isinstance(waited, Set) and not takes_own else 0
        event = super().event(thread, words, waited, by_callback, woken, cancellable)
        if ready > 0 and event is not None:
            self.steps[-1].member = event[1]
            self.steps[-1].is_open |= ready > 1
        return event

    def release(self, number):
        instance = self.instances[number]
        admitted = sorted((thread for thread in instance.held if instance.admits(thread)), key=lambda one: one.number)
        super().release(number)
        if admitted:
            self.orders[self.batches] = admitted
            self.steps[-1].batch = self.batches
            self.steps[-1].is_open |= len(admitted) > 1

    def in_order(self, entry, wanted):
        """The thread that is taken stood where `entry` was thought to stand."""
        batch, self.is_of_cancel = entry.batch, False
        taken = super().in_order(entry, wanted)
        if taken is not entry and not self.is_of_cancel:
            order = self.orders[batch]
            one, other = order.index(entry), order.index(taken)
            order[one], order[other] = taken, entry
        return taken


def choices(text, report):
    """The lines that give the report back."""
    run = Choosing(scenario.read(text))
    *labels, _ = scenario.report(report)
    for row, label in enumerate(labels, 1):
        try:
            run.take_in(label)
        except Misfit as misfit:
            raise scenario.Unreadable(5, f'the report and the text don\'t belong together: label {row} is `{label[:60]}`, and {misfit}') from misfit
    traps = labels and labels[-1].startswith('trap ')
    steps = run.steps[:-1] if traps else run.steps
    return [step.line(run.orders) for step in steps if step.is_open]


def words(given):
    """What the call's words say."""
    parser = argparse.ArgumentParser(description=__doc__, formatter_class=argparse.RawDescriptionHelpFormatter)
    parser.add_argument('report')
    parser.add_argument('--text', required=True)
    parser.add_argument('--whole', action='store_true')
    return parser.parse_args(given)


def main(given=None):
    """The status of a call with these words, or with those of the command line."""
    said = words(given)
    try:
        lines = choices(said.text, said.report)
        if said.whole:
            with open(said.text, encoding='ascii') as file:
                print(file.read().rstrip('\n'))
    except scenario.Unreadable as error:
        print(f'choices: {error}', file=sys.stderr)
        return error.status
    for line in lines:
        print(line)
    return 0


if __name__ == '__main__':
    try:
        sys.exit(main())
    except BrokenPipeError:
        sys.exit(0)
