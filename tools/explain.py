#!/usr/bin/env python3
"""Says of each label of a report where in the text it comes from and what it changed, and at the end who waits for what.

    tools/explain.py REPORT --text TEXT [--until N] [--json | --csv] [--expect OUTCOME]

REPORT is what `./vatbramble run STEPS` printed for the scenario TEXT. Each label is printed with the line of its op and with the
registers that it wrote; after them comes the outcome, a trap with its name, its line and its op, and for each thread, for main and for
each host's work what it waits for and since which label.

  --until N       takes only the first N labels, and says who waits for what after them
  --json, --csv   print the same as JSON, or only the labels as CSV
  --expect WORDS  prints only the end; the status is 0 if the outcome is WORDS, as in --expect "done 7", and 1 if it isn't

Other statuses: 2 wrong words, or REPORT is no report; 3 TEXT is no scenario; 4 a file can't be read; 5 the report is of another text, or
was changed; 6 TEXT is too long.

All is derived from the two files, by a replay of the registers and of the machine's state (docs/MACHINE.md). One thing they don't show:
in which order one release queued several threads, until each is taken. Where that is open at the end, the last line says so.
"""
import argparse
import csv
import json
import sys

import scenario
from example import TRAPS
from machine_state import Misfit, Thread, Work
from replay_ops import Run
from why import REGISTER

MEANINGS = """A task that has ended already returns, or answers a cancel
A task answers a cancel that was never delivered to it
A task of a sync or blocking export returns by an op, or a return has the wrong type
The last thread of a task ends, and the task has neither returned nor answered a cancel
A subtask is cancelled whose end was handed out, or a host call that was cancelled before
A subtask is dropped that hasn't ended, or whose end wasn't handed out
A subtask is joined or dropped that a sync call waits for, or is cancelled while it is in a set
A set is dropped on which a thread waits, or was woken and hasn't gone on
A task that may not block would have to, and no other thread of its instance can run instead
The backpressure of an instance would leave 0 to 65535
A thread would resume or promote itself, or resume one that is neither new nor suspended
A callback ends with a code that has no meaning or is above 4294967295
A thread is to be made from a slot that no line of its instance fills
A thread is to be made from a slot that a `bad` line fills
Nothing can go on, main waits, and no call is of an instance that may not be suspended (else 9)
A handle names nothing of the kind that the op wants
As many handles are live as `handles` allows, and one more is wanted
More entries are wanted than the table has room for
A task ends that still holds borrows
A call is started in a store that is trapped
A run is begun on a store that has one already
The host's hook on groups of calls answered an error
A store is asked for that is lent to somebody already
A store is asked for, and there is none
A set is dropped that still has a member""".split('\n')
ENDS = ('done', 'trap', 'host failed', 'deadlock', 'idle', 'out of steps')
VERBS = {'pends': 'waits', 'waiting': 'waits', 'blocked': 'is blocked', 'behind': 'is behind another', 'under': 'waits', 'held': 'is held',
         'suspended': 'is suspended', 'new': 'is new', 'queued': 'is queued', 'running': 'runs', 'live': 'is polled', 'finishing': 'is queued'}
STATES = {0: 'starting', 1: 'started', 2: 'returned', 3: 'cancelled before its start', 4: 'cancelled'}


def explained(run, labels):
    """A row for each label, by the replay that is left at its end."""
    for count, label in enumerate(labels, 1):
        try:
            run.take_in(label)
        except Misfit as misfit:
            raise scenario.Unreadable(5, f'the report and the text don\'t belong together: label {count} is `{label}`, and {misfit}') from None
        yield row_of(run, count, label)


def row_of(run, count, label):
    words = label.split(' ')
    thread = named_thread(run, words)
    op, next_op = run.op, None
    if words[0] == 'take' and thread is not None and thread.place == 'running':
        next_op = thread.op()
    return {'number': count, 'label': label, 'thread': thread.number if thread else None,
            'export': thread.call.export.name if thread else None, 'line': op.line if op else None, 'op': str(op) if op else None,
            'next_line': next_op.line if next_op else None, 'next_op': str(next_op) if next_op else None,
            'registers': [{'thread': number, 'register': register, 'value': value} for number, register, value in run.changes],
            'about': about(run, words)}


def named_thread(run, words):
    """The thread whose label it is, also if it has ended with it."""
    number = int(words[words.index('thread') + 1]) if words[0] in ('thread', 'take', 'trap') and 'thread' in words else None
    found = [thread for thread in run.moved if thread.number == number]
    return found[0] if found else run.threads.get(number) if number else None


def about(run, words):
    """What a label's numbers stand for: the call or the work that it names, an event, a packed status."""
    if words[0] == 'future' or words[0] == 'take' and words[2] in ('push', 'host'):
        return run.works[int(words[1] if words[0] == 'future' else words[3])].name()
    if words[:2] == ['main', 'start'] and 'thread' in words or 'calls' in words or 'enters' in words:
        return run.calls[int(words[words.index('thread', 2) + 1])].name()
    parts = []
    if words[0] == 'take' and 'event' in words or words[2:3] in (['wait'], ['poll']):
        parts.append(event(words[-5 if words[-2] == 'wakes' else -3:][:3]))
    elif words[2:3] == ['call']:
        parts.append(packed(int(words[3])))
    elif words[2:3] in (['cancel'], ['cancel_sync']):
        parts.append(STATES.get(int(words[3]), 'it has not ended yet'))
    if 'future' in words:
        parts.append(run.works[int(words[words.index('future') + 1])].name())
    return '; '.join(parts) or None


def event(numbers):
    """The three numbers of an event in words."""
    code, handle, status = map(int, numbers)
    return f'subtask {handle}: {STATES[status]}' if code == 1 else 'a cancel' if code == 6 else 'no event'


def packed(answer):
    """The answer of `call` in words."""
    return 'returned' if answer == 2 else f'subtask {answer // 16}: {STATES[answer % 16]}'


# ---- who waits for what

def main_waits(run):
    """What main waits for, or None if it doesn't."""
    if run.main_since is None:
        return None
    op = run.scenario.main[run.main_at]
    name, *operands = op.words
    if name == 'finish':
        what = f'{run.starts[int(operands[0]) - 1].name()} has not returned'
    elif name == 'await':
        what = f'{run.spawns[int(operands[0]) - 1].name()} is not complete'
    elif name == 'ready':
        what = closed(run.instances[run.scenario.exports[operands[0]].instance])
    else:
        what = f'{run.interesting} {"task is" if run.interesting == 1 else "tasks are"} interesting still'
    return waits('main', 'main', 'pends', what, run.main_since, op)


def waits(who, whose, place, what, since, op):
    return {'who': who, 'of': whose, 'place': place, 'what': what, 'since': since, 'line': op.line if op else None,
            'op': str(op) if op else None}


def closed(instance):
    """Why an instance lets nobody in."""
    causes = []
    if instance.do_not_enter:
        causes.append(f'thread {instance.inside.number} is inside')
    if instance.backpressure:
        causes.append(f'its backpressure is {instance.backpressure}')
    return f'{instance.name} lets no call in, since {" and ".join(causes)}'


def state_of(subtask):
    """How far a subtask has come."""
    if isinstance(subtask, Work):
        if subtask.stage == 'ended':
            return 'has ended'
        return 'never ends' if subtask.polls is None and not subtask.aborted else f'has not ended ({polls_left(subtask)})'
    if subtask.end is not None:
        return f'has {STATES[subtask.end]}' if subtask.end == 2 else f'was {STATES[subtask.end]}'
    return 'has not returned' if subtask.started else 'has not begun'


def polls_left(work):
    return 'it was aborted' if work.aborted else '1 poll is left' if work.polls == 1 else f'{work.polls} polls are left'


def thread_waits(run, thread):
    """What a thread waits for."""
    place, thing = thread.place, thread.object
    if place == 'waiting':
        members = [f'{member.name()} {state_of(member)}' for member in thing.members]
        what = f'for set {thing.handle} to get an event; ' + ('; '.join(members) if members else 'the set has no member')
    elif place == 'held':
        what = f'{"its start" if thread.why[0] == "start" else "its event"} waits, as {closed(run.instances[thread.instance])}'
    else:
        what = {'blocked': lambda: f'{thing.name()} {state_of(thing)}', 'behind': lambda: f'thread {thing.number} has the turn before it',
                'under': lambda: f'thread {thing.number}, which it called, runs on top of it',
                'suspended': lambda: 'no thread of its task has resumed it', 'new': lambda: 'no thread of its task has started it',
                'queued': lambda: f'its entry is at {thing}', 'running': lambda: 'it has the turn'}[place]()
    return waits(f'thread {thread.number}', thread.call.export.name, place, what, thread.since, thread.op())


def work_waits(work):
    """What a host's work waits for."""
    what = {'queued': 'its push is at high', 'finishing': 'its end is at high'}.get(work.stage)
    what = what or ('it ends at its next poll, as it was aborted' if work.aborted else 'it never ends' if work.polls is None else polls_left(work))
    return waits(f'future {work.number}', f'host {work.host.name}', work.stage, what, work.since, None)


def all_waits(run):
    """Main, each thread and each work that goes on, with what each waits for."""
    found = [main_waits(run)]
    trapped = strand(run) if run.phase == 'over' and run.trapped else []
    found += [thread_waits(run, thread) for thread in run.threads.values() if thread not in trapped]
    found += [work_waits(work) for work in run.works.values() if work.stage != 'ended']
    return [one for one in found if one]


def strand(run):
    """The thread that runs, or whose entry is taken, and those under it."""
    found, thread = [], run.running
    while thread is not None:
        found.append(thread)
        thread = thread.under
    return found


def unknown(run):
    """What the two files don't show of this state."""
    batches = {}
    for entry in (run.switch, *run.high):
        if isinstance(entry, Thread) and entry.batch:
            batches.setdefault(entry.batch, []).append(str(entry.number))
    return [f'in which order threads {", ".join(batch)}, which were released together, are queued' for batch in batches.values() if len(batch) > 1]


# ---- the outcome

def outcome_misfit(run, labels, outcome):
    """Why this outcome can't follow these labels, or None."""
    last = labels[-1].split(' ') if labels else ['']
    wanted = {'main answer': f'done {last[-1]}', 'trap thread': f'trap {last[-1]}'}.get(' '.join(last[:2]))
    if last[0] == 'deadlock':
        wanted = ' '.join(last)
    if 'fails' in last:
        wanted = f'host failed {last[1] if last[0] == "future" else last[3]}'
    if wanted is not None:
        return None if outcome == wanted else f'after that label comes `{wanted}`'
    if outcome == 'out of steps':
        return None
    run.settle_turn()
    stands = run.phase == 'take' and run.next_entry() is None
    if outcome == 'idle' and stands and (run.live_works or run.scenario.idle == 'wait'):
        return None
    return 'the run isn\'t over there'


def outcome_of(run, labels, outcome):
    """The outcome in words."""
    words = outcome.split(' ')
    if words[0] == 'trap':
        return trap_of(run, int(words[1]))
    if words[0] == 'deadlock':
        name, means = TRAPS[int(words[1]) - 1], MEANINGS[int(words[1]) - 1]
        return {'number': int(words[1]), 'name': name, 'means': means, 'says': f'deadlock {words[1]} {name}: nothing can go on'}
    if words[0] == 'host':
        return {'says': f'{outcome}: {run.works[int(words[2])].name()} has failed'}
    return {'says': {'done': f'{outcome}: main has answered', 'idle': 'idle: nothing can go on, and that is no deadlock here',
                     'out': f'{outcome}: the {len(labels)} steps are used up'}[words[0]]}


def trap_of(run, number):
    """A trap, where it came, and the registers that its op names."""
    thread, op = run.running, run.op
    where = f'line {op.line}: `{op}`' if op else 'at the end of its script' if run.taken is None else 'as its start was taken'
    values = {word: run.value(thread, word) for word in (op.words[1:] if op else ()) if REGISTER.match(word)}
    held = ', '.join(f'{register} is {value}' for register, value in values.items())
    says = f'trap {number} {TRAPS[number - 1]}, {where}, thread {thread.number} of {thread.call.export.name}' + (f', where {held}' if held else '')
    return {'number': number, 'name': TRAPS[number - 1], 'means': MEANINGS[number - 1], 'thread': thread.number,
            'export': thread.call.export.name, 'line': op.line if op else None, 'op': str(op) if op else None, 'registers': values, 'says': says}


# ---- printing

def registers_text(row):
    parts = []
    for change in row['registers']:
        whose = '' if change['thread'] in (row['thread'], None) else f'thread {change["thread"]}: '
        parts.append(f'{whose}{change["register"]} = {change["value"]}')
    return ', '.join(parts)


def row_text(row, wide):
    where = (f'line {row["line"]}: {row["op"]}' if row['op'] else f'next is line {row["next_line"]}: {row["next_op"]}' if row['next_op']
             else "the script's end" if row['label'].endswith(' exit') else '')
    said = '; '.join(part for part in (registers_text(row), row['about']) if part)
    return f'{row["number"]:6}  {row["label"]:{wide}}  {where:40}  {said}'.rstrip()


def print_end(end):
    print(f'\n{end["why"]["says"]}' if end['outcome'] else f'\nbehind label {end["labels"]}:')
    if 'means' in end['why']:
        print(f'  {end["why"]["means"]}.')
    for one in end['waits']:
        whose = '' if one['who'] == 'main' else f' of {one["of"]}'
        at = f' at line {one["line"]} (`{one["op"]}`)' if one['op'] else ''
        print(f'  {one["who"]}{whose} {VERBS[one["place"]]}{at} since label {one["since"]}: {one["what"]}')
    for one in end['unknown']:
        print(f'  not known: {one}')


def write_csv(rows):
    table = csv.writer(sys.stdout, lineterminator='\n')
    table.writerow(['number', 'label', 'thread', 'export', 'line', 'op', 'registers'])
    for row in rows:
        table.writerow([row['number'], row['label'], row['thread'], row['export'], row['line'], row['op'], registers_text(row)])


def end_of(run, labels, outcome):
    """The end: the outcome, or None where only a part of the labels was taken, and who waits."""
    return {'outcome': outcome, 'labels': len(labels), 'why': outcome_of(run, labels, outcome) if outcome else {},
            'waits': [] if outcome and outcome.startswith('done') else all_waits(run), 'unknown': unknown(run)}


def followed(text, report, until):
    """The rows of the labels, and the end."""
    run = Run(scenario.read(text))
    *labels, outcome = scenario.report(report)
    if not outcome.startswith(ENDS):
        raise scenario.Unreadable(2, f'{report} is no report: its last line is `{outcome[:60]}`, which is no outcome')
    if until is not None and until < len(labels):
        labels, outcome = labels[:until], None
    rows = list(explained(run, labels))
    if outcome and (misfit := outcome_misfit(run, labels, outcome)):
        raise scenario.Unreadable(5, f'the report and the text don\'t belong together: its outcome is `{outcome}`, and {misfit}')
    return rows, end_of(run, labels, outcome)


def words(given):
    """What the call's words say."""
    parser = argparse.ArgumentParser(description=__doc__, formatter_class=argparse.RawDescriptionHelpFormatter)
    parser.add_argument('report')
    parser.add_argument('--text', required=True)
    parser.add_argument('--until', type=int, metavar='N')
    form = parser.add_mutually_exclusive_group()
    form.add_argument('--json', action='store_true')
    form.add_argument('--csv', action='store_true')
    parser.add_argument('--expect', metavar='OUTCOME')
    said = parser.parse_args(given)
    if said.until is not None and said.until < 0:
        parser.error('N of --until is 0 or more')
    return said


def main(given=None):
    """The status of a call with these words, or with those of the command line."""
    said = words(given)
    try:
        rows, end = followed(said.text, said.report, said.until)
    except scenario.Unreadable as error:
        print(f'explain: {error}', file=sys.stderr)
        return error.status
    if said.json:
        json.dump({'labels': rows, 'end': end}, sys.stdout, indent=1)
        print()
    elif said.csv:
        write_csv(rows)
    else:
        wide = max((len(row['label']) for row in rows), default=0)
        if said.expect is None:
            print(*(row_text(row, wide) for row in rows), sep='\n')
        print_end(end)
    if said.expect is not None and end['outcome'] != said.expect:
        print(f'explain: the outcome is `{end["outcome"]}`, and `{said.expect}` is expected', file=sys.stderr)
        return 1
    return 0


if __name__ == '__main__':
    try:
        sys.exit(main())
    except BrokenPipeError:
        sys.exit(0)
