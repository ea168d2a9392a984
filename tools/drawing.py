"""What a run's drawing shows: of each column its bars, the arrows between columns, the rows at which columns end.

A column is `main`, a thread by its number, or a host's work as f1, f2 and so on. A bar has a state: queued, runs, stopped, held, or live
for a work that is polled. By a replay of the text (`of_replay`) the states are those of the machine. By the labels alone (`of_labels`) it
isn't known when a stopped thread was queued, and such a bar says stopped.
"""
import re

import scenario
from machine_state import Misfit
from replay_ops import Run

STATES = {'queued': 'queued', 'running': 'runs', 'held': 'held'}  # by the place of a thread; any other place is a stop
NAMED = re.compile(r'(?:thread|wakes) (\d+)')
WORK = re.compile(r'^take \w+ (?:push|host) (\d+)|future (\d+)|^thread \d+ fails (\d+)$')


class Drawing:
    """Bars as column, state, first row and row behind the last; arrows as row, column, column; ends as column, row."""

    def __init__(self, labels):
        self.labels = labels
        self.bars, self.arrows, self.ends = [], [], []
        self.open, self.order, self.lines = {}, [], [0] * len(labels)
        self.groups = {'main': ('main', 'main')}
        self.told = {int(label.split(' ')[3]) for label in labels if re.match(r'take \w+ host \d+', label)}

    def close(self, column, row):
        """Ends the column's bar before the row."""
        state, since = self.open.pop(column, (None, row))
        if state and row > since:
            self.bars.append([column, state, since, row])

    def turn(self, column, state, row):
        """The column is in this state from the row on."""
        if column not in self.groups:
            self.groups[column] = None
        if self.open.get(column, (None,))[0] != state:
            self.close(column, row)
            self.open[column] = (state, row)

    def at_row(self, column, state, row, then):
        """The column is in the one state at this row, and then in the other."""
        self.turn(column, state, row)
        self.turn(column, then, row + 1)

    def end(self, column, row):
        self.close(column, row + 1)
        self.ends.append([column, row])

    def finish(self):
        for column in list(self.open):
            self.close(column, len(self.labels))

    # ---- main and works, whose labels say all

    def main(self, words, row):
        self.turn('main', 'stopped' if words[1] == 'pends' else 'runs', row)
        if words[1] == 'answer':
            self.end('main', row)

    def work(self, label, row, has_entry=None):
        """A label that polls, pushes or tells a host's work; whether the work's end has an entry, if that is known."""
        found = WORK.search(label)
        if not found:
            return
        number = next(int(group) for group in found.groups() if group)
        column, words = f'f{number}', label.split(' ')
        if words[0] == 'future':
            self.at_row(column, 'runs', row, 'live')
            if has_entry is None:
                has_entry = number in self.told
            if words[2] == 'ends' and has_entry:
                self.turn(column, 'queued', row + 1)
            elif words[2] in ('ends', 'fails'):
                self.end(column, row)
        elif words[0] == 'take':
            self.turn(column, 'live' if words[2] == 'push' else 'queued', row)
            if words[2] == 'host':
                self.end(column, row)
        else:
            self.first_poll(column, words, row)

    def first_poll(self, column, words, row):
        """A work that begins: by main, or by a call of a host, which may be ready at once."""
        self.groups.setdefault(column, None)
        self.arrows.append([row, 'main' if words[0] == 'main' else words[1], column])
        if words[2] == 'fails' or words[2:4] == ['call', '2'] or words[2] == 'call_sync':
            self.turn(column, 'runs', row)
            self.end(column, row)
        else:
            self.turn(column, 'queued', row)

    def woken(self, words, row):
        """The arrow to a thread that the step woke."""
        if len(words) > 2 and words[-2] == 'wakes':
            source = f'f{words[3]}' if words[0] == 'take' and words[2] == 'host' else (NAMED.search(' '.join(words[:-2])) or [None, None])[1]
            if source:
                self.arrows.append([row, source, words[-1]])

    def columns(self):
        """Main, the threads by instance and call, and the works: each with its call and its name."""
        def place(column):
            call, name = self.groups[column] or (column, '')
            if column == 'main' or column[0] == 'f':
                return (0 if column == 'main' else 2, '', 0, int(column[1:]) if column[0] == 'f' else 0)
            return (1, name.split('.')[0], int(call), int(column))
        found = sorted(self.groups, key=place)
        return [[column, *(self.groups[column] or (column, 'hosts.' if column[0] == 'f' else ''))] for column in found
                if column != 'main' or any(bar[0] == 'main' for bar in self.bars)]


def of_replay(text, labels):
    """The drawing of these labels as a run of the text; a misfit is said, as by explain.py."""
    drawing, run = Drawing(labels), Run(text)
    for row, label in enumerate(labels):
        try:
            run.take_in(label)
        except Misfit as misfit:
            raise scenario.Unreadable(5, f'the report and the text don\'t belong together: label {row + 1} is `{label}`, and {misfit}') from None
        words = label.split(' ')
        drawing.lines[row] = run.op.line if run.op else -next_line(run, words)
        if words[0] == 'main':
            drawing.main(words, row)
        drawing.work(label, row, words[0] == 'future' and run.works[int(words[1])].stage == 'finishing')
        threads_moved(drawing, run, words, row)
        drawing.woken(words, row)
    for work in run.works.values():
        drawing.groups[f'f{work.number}'] = (f'f{work.number}', f'hosts.{work.host.name}')
    drawing.finish()
    return drawing


def next_line(run, words):
    """The line of the op with which a thread goes on that is taken, or 0."""
    op = run.running.op() if words[0] == 'take' and words[2] == 'thread' and run.phase == 'run' else None
    return op.line if op else 0


def threads_moved(drawing, run, words, row):
    """What the label did to threads."""
    actor = words[words.index('thread') + 1] if words[0] in ('thread', 'take', 'trap') and 'thread' in words else None
    for thread in dict.fromkeys(run.moved):
        column = str(thread.number)
        is_new = column not in drawing.groups
        drawing.groups[column] = (thread.call.number, thread.call.export.name)
        if is_new and words[0] in ('main', 'thread'):
            drawing.arrows.append([row, 'main' if words[0] == 'main' else words[1], column])
        if thread.place == 'ended':
            drawing.end(column, row)
        elif column == actor and words[0] == 'thread':
            drawing.at_row(column, 'runs', row, STATES.get(thread.place, 'stopped'))
        else:
            at_once = column == actor or is_new and thread.place != 'running'
            drawing.turn(column, STATES.get(thread.place, 'stopped'), row if at_once else row + 1)
    if words[0] == 'trap':
        thread = run.running
        while thread is not None:
            drawing.end(str(thread.number), row)
            thread = thread.under


class Labels:
    """What the labels alone say of threads."""

    def __init__(self, labels):
        self.drawing, self.call, self.is_callback = Drawing(labels), {}, set()
        for row, label in enumerate(labels):
            words = label.split(' ')
            if words[0] == 'main':
                self.drawing.main(words, row)
            self.drawing.work(label, row)
            self.read(words, row)
            self.drawing.woken(words, row)
            if len(words) > 2 and words[-2] == 'wakes':
                self.drawing.turn(words[-1], 'queued', row + 1)
        for column, call in self.call.items():
            self.drawing.groups[column] = (int(call), '')
        self.drawing.finish()

    def read(self, words, row):
        if words[0] == 'main' and words[1] == 'start' and words[3] == 'thread':
            self.made(words[4], words[4], 'main', 'queued', row)
        elif words[0] == 'take' and words[2] == 'thread':
            rest = words[4] if len(words) > 4 else ''
            self.call.setdefault(words[3], words[3])
            self.drawing.turn(words[3], {'held': 'held', 'again': 'stopped'}.get(rest, 'runs'), row)
        elif words[0] == 'trap':
            self.call.setdefault(words[2], words[2])
            self.drawing.end(words[2], row)
        elif words[0] == 'thread':
            self.own(words[1], words[2:], row)

    def made(self, column, call, by, state, row):
        self.call[column] = call
        self.drawing.turn(column, state, row)
        self.drawing.arrows.append([row, by, column])

    def own(self, column, words, row):
        """A label of a thread: its op is done, it has stopped, or it has ended."""
        self.call.setdefault(column, column)
        self.drawing.turn(column, 'runs', row)
        if words[0] in ('calls', 'enters'):
            self.made(words[2], words[2], column, 'queued' if words[0] == 'calls' else 'runs', row)
            self.drawing.turn(column, 'stopped', row + 1)
        elif words[0] in ('pauses', 'cb_wait', 'code', 'fails'):
            self.drawing.turn(column, 'stopped', row + 1)
        elif words[0] == 'cb_yield':
            self.drawing.turn(column, 'queued', row + 1)
        elif words[0] == 'exit':
            self.drawing.end(column, row)
        elif words[0] == 'thread_new' and 'thread' in words:
            self.made(words[words.index('thread') + 1], self.call[column], column, 'stopped', row)


def of_labels(labels):
    """The drawing of these labels without their text; a label that is none is said."""
    try:
        return Labels(labels).drawing
    except (IndexError, ValueError) as error:
        raise scenario.Unreadable(2, f'this is no report: some line has not the form of a label ({error})') from None
