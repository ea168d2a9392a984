"""Which labels may come next in a run: what `why.py --report` says of a wrong line.

The run is followed by the replay, and labels with a gap are tried on copies of it; what the replay wants in the gap is lawful there.
"""
import copy
import re

import scenario
from machine_state import Misfit, Thread
from replay import goes_on
from replay_ops import Run

TRAP = re.compile(r'which is trap (?:or refusal )?(\d+)(?: or (\d+))?$')


class Gap(Exception):
    """What the replay wants in place of the words of a label."""

    def __init__(self, label):
        super().__init__(label)
        self.label = label


class Waiters(Exception):
    """One of these threads is woken, and the label has to say which."""

    def __init__(self, numbers):
        super().__init__(numbers)
        self.numbers = numbers


class Members(Exception):
    """An event of one of the members with these handles is taken."""

    def __init__(self, handles):
        super().__init__(handles)
        self.handles = handles


class Probe(Run):
    """A run on which a label with a gap is tried. Releases go in the order in which the threads were held last."""

    def says(self, label, words):
        if ' '.join(words) != str(label):
            raise Gap(str(label))

    def wake(self, waited):
        numbers = [thread.number for thread in waited.waiters]
        if numbers and self.wakes not in numbers:
            raise Waiters(sorted(numbers))
        super().wake(waited)

    def event(self, thread, words, waited, by_callback, woken=None, cancellable=False):
        own = thread.call.own
        if waited is not None and not (own == 'none' or own == 'cancelled' and (by_callback or cancellable)):
            handles = sorted(member.handle for member in waited.ready())
            if handles and (len(words) != 3 or words[1] not in map(str, handles)):
                raise Members(handles)
        return super().event(thread, words, waited, by_callback, woken, cancellable)

    def release(self, number):
        instance = self.instances[number]
        admitted = [thread for thread in instance.held if instance.admits(thread)]
        instance.held = [thread for thread in instance.held if thread not in admitted]
        for thread in admitted:
            self.queue(thread, 'high', thread.why)


def deadlock(run):
    """The trap of a deadlock."""
    barred = any(call.in_table and run.instances[call.export.instance].do_not_suspend for call in run.calls.values())
    return f'deadlock {9 if barred else 15}'


def take_probes(run):
    """The labels that a taking may have, with gaps."""
    entry = run.next_entry()
    if entry is None:
        return ['rest', deadlock(run)]
    mark = 'switch' if run.switch is not None else 'high' if run.high else 'low'
    if not isinstance(entry, Thread):
        return [f'take {mark} {entry.kind} {entry.work.number}']
    label = f'take {mark} thread {entry.number}'
    if entry.why[0] != 'delivery' or not run.instances[entry.instance].admits(entry):
        return [label, f'{label} held']
    waited = entry.why[1]
    finds = entry.call.own is not None or not isinstance(waited, str) and waited.ready()
    return [f'{label} event ? ? ?'] if finds or isinstance(waited, str) else [f'{label} again']


def probes(run):
    """The labels that may come, with gaps."""
    if run.phase == 'main':
        if run.main_at >= len(run.scenario.main):
            return ['main pends']
        name, *operands = run.scenario.main[run.main_at].words
        if run.main_pends(name, operands):
            return ['main pends']
        return [f'main {name} ?', f'main {name} {len(run.starts) + 1} refused ?'] if name == 'start' else [f'main {name} ?']
    if run.phase == 'futures':
        return [f'future {min(work.number for work in run.live_works if work.number > run.polled)} ?']
    if run.phase == 'take':
        return take_probes(run)
    thread = run.running
    op = thread.op()
    front = f'thread {thread.number}'
    name = op.words[0] if op else 'exit'
    return [f'{front} {word} ?' for word in (name, 'pauses', 'calls', 'enters', 'fails')]


def filled(front, label, want):
    """The label with what the replay wants in its gap."""
    words = label.split(' ')
    if words[0] == 'take':
        base = ' '.join(words[:4])
        return base if want == '' else f'{base} {want}' if want == 'held' else f'{base} event {want}'
    return f'{front} {want}'


def tried(run, label):
    """The labels that come of one with a gap: itself if it is lawful, or others to be tried; and those of a trap."""
    copied = copy.deepcopy(run)
    words = label.split(' ')
    front = ' '.join(words[:2]) if words[0] == 'thread' else words[0]
    thread = run.running if run.phase == 'run' else run.next_entry() if run.phase == 'take' else None
    woken = f' wakes {words[-1]}' if len(words) > 2 and words[-2] == 'wakes' else ''
    plain = label[:-len(woken)] if woken else label
    try:
        copied.take_in(label)
    except Gap as gap:
        return [], [filled(front, plain, gap.label) + woken]
    except Waiters as waiters:
        return [], [f'{plain} wakes {number}' for number in waiters.numbers]
    except Members as members:
        base = ' '.join(words[:4]) + ' event' if words[0] == 'take' else ' '.join(words[:3])
        return [], [f'{base} 1 {handle} 0{woken}' for handle in members.handles]
    except Misfit as misfit:
        found = TRAP.search(str(misfit))
        if found and isinstance(thread, Thread):
            return [f'trap thread {thread.number} {number}' for number in found.groups() if number], []
        return [], []
    except (StopIteration, KeyError, IndexError, AttributeError, TypeError):
        return [], []
    return [label], []


def lawful(run):
    """The labels that may come next."""
    run.settle_turn()
    if run.phase == 'over':
        return []
    labels, seen, left = [], set(), probes(run)
    while left:
        label = left.pop(0)
        if label in seen:
            continue
        seen.add(label)
        found, more = tried(run, label)
        labels += [one for one in found if one not in labels]
        left += more
    done = [label for label in labels if not label.startswith('trap ')]
    return done or labels


def outcome_of(run, labels):
    """The outcome's line after these labels, if no more steps are left."""
    last = labels[-1].split(' ') if labels else ['']
    if last[:2] == ['main', 'answer']:
        return f'done {last[2]}'
    if last[0] == 'trap':
        return f'trap {last[3]}'
    if last[0] == 'deadlock':
        return labels[-1]
    if last[-1] == 'fails' or last[0] == 'thread' and last[2] == 'fails':
        return f'host failed {last[1] if last[0] == "future" else last[3]}'
    idle = run.phase == 'take' and run.next_entry() is None and not any(goes_on(work) for work in run.live_works)
    return 'idle' if idle and (run.live_works or run.scenario.idle == 'wait') else 'out of steps'


def expected(text, report, line):
    """The labels that may stand in this line of a report of the text, whose lines before it are right, and the outcome's line."""
    run = Probe(scenario.read(text))
    lines = scenario.report(report)
    before = lines[:line - 1]
    if any(ended(one) for one in before):
        return [], None
    for label in before:
        try:
            run.take_in(label)
        except (Gap, Waiters, Members) as gap:
            raise Misfit(f'`{label}` is no label there') from gap
    labels = lawful(run)
    return labels, outcome_of(run, before)


def ended(line):
    """Whether the line can be an outcome's alone."""
    return line in ('idle', 'out of steps') or line.startswith(('done ', 'host failed ')) or line.startswith('trap ') and len(line.split(' ')) == 2
