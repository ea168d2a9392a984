#!/usr/bin/env python3
"""Writes a run as an example of the crate laws_examples.

    tools/example.py NAME STEPS SCENARIO REPORT [--file FILE] [--exchanges LABEL:A-B,A-B ...]

SCENARIO and REPORT are files: a scenario text, and the report of its run with at most STEPS steps. What is printed are
the three pieces of the example: the definitions for specs/FILE.antt, the proof for proofs/FILEShown.antt and the
function for src/, laid out by `rt fmt` afterwards; `rt check --fix-imports` adds what they use. Any program's report
may be taken: a label that the machine doesn't make is refused here, by the replay of explain.py and with its statuses, and by the
checker, which computes the run anew.

A step may release several held threads, and its label doesn't show their order. Where that isn't the order of their
numbers, --exchanges says how it comes from it, for each such label by its number, from 0: `106:2-3,1-2` exchanges the
places 1 and 2 of the list, then the places 2 and 3.
"""
import argparse
import re
import sys

SLOTS = 16
KINDS = {'sync': 'Sync', 'blocking': 'Blocking', 'stackful': 'Stackful', 'callback': 'Callback'}
PHASES = {'running': 'Running', 'requested': 'AbortRequested', 'complete': 'Complete'}
STATUSES = ['Starting', 'Started', 'Returned', 'StartCancelled', 'ReturnCancelled']
# in order of their numbers, from 1
TRAPS = ('TaskCancelOrReturnTwice TaskCancelNotCancelled TaskReturnInvalid NoAsyncResult SubtaskCancelAfterTerminal '
         'SubtaskDropNotResolved WaitableSyncAndAsync WaitableSetDropHasWaiters CannotBlockSyncTask '
         'BackpressureOverflow CannotResumeThread UnsupportedCallbackCode ThreadNewIndirectUninitialized '
         'ThreadNewIndirectInvalidType AsyncDeadlock BadHandle HandleLimit TableFull ScopeExit CannotEnterComponent '
         'RecursiveRun HookFailed StoreTaken StoreAbsent TableHasChildren').split()

# Of each op of a guest its group, its variant and its operands in the order of the line: a register, a number, or
# either. Calls are apart, since their variants are by what is called.
OPS = {
    'set': ('Data', 'Set', 'register either'),
    'add': ('Data', 'Add', 'register either'),
    'handle': ('Data', 'Handle', 'register either'),
    'load': ('Data', 'Load', 'register number'),
    'store': ('Data', 'Store', 'number either'),
    'skip_eq': ('Data', 'SkipEq', 'either either number'),
    'ret': ('Task', 'Ret', 'either'),
    'ret_bad': ('Task', 'RetBad', 'either'),
    'task_cancel': ('Task', 'TaskCancel', ''),
    'exit': ('Task', 'Exit', ''),
    'cb_yield': ('Task', 'CbYield', ''),
    'cb_wait': ('Task', 'CbWait', 'either'),
    'code': ('Task', 'Code', 'either'),
    'bp_inc': ('Task', 'BpInc', ''),
    'bp_dec': ('Task', 'BpDec', ''),
    'set_new': ('Set', 'New', 'register'),
    'set_drop': ('Set', 'Drop', 'either'),
    'wait': ('Set', 'Wait', 'register either'),
    'poll': ('Set', 'Poll', 'register either'),
    'join': ('Set', 'Join', 'either either'),
    'cancel': ('Call', 'Cancel', 'register either'),
    'cancel_sync': ('Call', 'CancelSync', 'register either'),
    'drop': ('Call', 'Drop', 'either'),
    'thread_new': ('Thread', 'New', 'register number either'),
    'thread_index': ('Thread', 'Index', 'register'),
    'resume_later': ('Thread', 'ResumeLater', 'either'),
    'suspend': ('Thread', 'Suspend', ''),
    'yield': ('Thread', 'Yield', ''),
    'suspend_then_resume': ('Thread', 'SuspendThenResume', 'either'),
    'yield_then_resume': ('Thread', 'YieldThenResume', 'either'),
    'suspend_then_promote': ('Thread', 'SuspendThenPromote', 'either'),
    'yield_then_promote': ('Thread', 'YieldThenPromote', 'either'),
}

# The labels whose variant has the answers in another order than the line, or that aren't of an op: by the word behind
# the thread, from the thread, the words after it, the thread woken and the work polled.
THREAD_LABELS = {
    'fails': 'label.Call (call_label.Fails {thread} {words[0]})',
    'calls': 'label.Call (call_label.Calls {thread} {words[1]})',
    'enters': 'label.Call (call_label.Enters {thread} {words[1]})',
    'pauses': 'label.Thread (thread_label.Pauses {thread})',
    'call': 'label.Call (call_label.Call {words[0]} {thread})',
    'call_sync': 'label.Call (call_label.CallSync {thread} {words[0]})',
    'set_new': 'label.Set (set_label.New {words[0]} {thread})',
    'wait': 'label.Set (set_label.Wait {given} {thread})',
    'poll': 'label.Set (set_label.Poll {given} {thread})',
    'cancel': 'label.Call (call_label.Cancel {words[0]} {thread})',
    'cancel_sync': 'label.Call (call_label.CancelSync {words[0]} {thread})',
    'thread_new': 'label.Thread (thread_label.New {words[0]} {thread} {words[2]})',
    'thread_index': 'label.Thread (thread_label.Index {words[0]} {thread})',
}
WAKING_LABELS = {
    'ret': 'label.RetWakes {thread} {words[0]} {woken}',
    'wait': 'label.Set (set_label.WaitWakes {own} {thread} {woken})',
}
POLLING_LABELS = {
    'call': 'label.Call (call_label.CallPolls {words[0]} {thread} {work})',
    'call_sync': 'label.CallSyncPolls {thread} {words[0]} {work}',
    'pauses': 'label.Call (call_label.PausesPolls {thread} {work})',
}
MAIN_LABELS = {
    'start': 'Start {words[0]} {words[2]}',
    'finish': 'Finish {words[0]} {words[2]}',
    'spawn': 'Spawn {words[0]} {words[2]}',
    'await': 'Await {words[0]}',
    'quiet': 'Quiet',
    'ready': 'Ready',
    'answer': 'Answer {words[0]}',
}
FUTURE_LABELS = {'pends': 'FuturePends', 'ends': 'FutureEnds', 'fails': 'FutureFails'}


# ---- The scenario

def operand(word):
    """A register or a number, as the operand of an op."""
    kind = 'Register' if is_register(word) else 'Number'
    return f'(operand.{kind} {word.lstrip("r")})'


def is_register(word):
    return re.fullmatch(r'r\d+', word) is not None


def listed(items):
    """The list of these terms."""
    return '(' + ' ∷ '.join([*items, '[]']) + ')' if items else '[]'


def operands(forms, words):
    """The words as operands of these forms, with a blank before each."""
    written = {'register': lambda word: word[1:], 'number': lambda word: word, 'either': operand}
    return ''.join(' ' + written[form](word) for form, word in zip(forms.split(), words))


class Scenario:
    """A scenario text as the parts of its term, in the order of their lines, since their places number them."""

    def __init__(self, text):
        lines = [line.split(' ') for line in text.rstrip('\n').split('\n')]
        if lines[0] != ['scenario', '1'] or lines[-1] != ['end']:
            raise SystemExit('the text is no scenario of version 1')
        self.handles, self.table, self.idle = (line[1] for line in lines[1:4])
        self.hosts, self.places_of_hosts = [], {}
        self.instances, self.exports = [], {}
        self.main, self.script = [], None
        for line in lines[4:-1]:
            self.read(*line)

    def read(self, keyword, *words):
        """Takes in one line between the head and the end."""
        reads = {'host': self.read_host, 'instance': self.read_instance, 'export': self.read_export,
                 'react': self.read_react, 'thread': self.read_slot, 'bad': self.read_bad, 'main': self.read_main}
        if keyword in reads:
            reads[keyword](*words)
        elif self.script is self.main:
            self.read_main_op(keyword, *words)
        else:
            self.script.append(self.op(keyword, *words))

    def read_host(self, name, *words):
        self.places_of_hosts[name] = len(self.hosts)
        polls = f'(Some {words[1]})' if words[0] == 'polls' else 'None'
        value = f'(Some {words[3]})' if words[2:3] == ('value',) else 'None'
        self.hosts.append(f'host_def.Settled {polls} {value}')

    def read_instance(self, name):
        self.instances.append({'name': name, 'exports': [], 'slots': {}})

    def read_export(self, name, kind, params):
        instance = self.instances[-1]
        self.exports[f'{instance["name"]}.{name}'] = (len(self.instances) - 1, len(instance['exports']))
        self.script = []
        instance['exports'].append({'name': name, 'kind': kind, 'params': params, 'start': self.script, 'react': []})

    def read_react(self):
        self.script = self.instances[-1]['exports'][-1]['react']

    def read_slot(self, slot):
        self.script = []
        self.instances[-1]['slots'][int(slot)] = self.script

    def read_bad(self, slot):
        self.instances[-1]['slots'][int(slot)] = None

    def read_main(self):
        self.script = self.main

    def read_main_op(self, keyword, *words):
        """Takes in an op of main. Lines of aborters are left out: the runs of the examples have none."""
        if keyword != 'aborter':
            self.main.append('main_op.' + self.main_op(keyword, *words))

    def main_op(self, keyword, *words):
        if keyword == 'start':
            return f'Start {self.callee(words[0])} {listed([operand(word) for word in words[1:]])}'
        if keyword == 'ready':
            return f'Ready {self.callee(words[0])}'
        if keyword == 'spawn':
            return f'Spawn {self.places_of_hosts[words[0]]}'
        forms = {'finish': 'number register', 'abort': 'number', 'await': 'number', 'quiet': '', 'answer': 'either'}
        return keyword.capitalize() + operands(forms[keyword], words)

    def callee(self, name):
        instance, export = self.exports[name]
        return f'(record {{ instance = {instance}; export = {export} }})'

    def op(self, keyword, *words):
        """The term of a guest's op."""
        if keyword == 'call':
            return self.call('Call', f'{words[0][1:]} {words[1][1:]}', *words[2:])
        if keyword == 'call_sync':
            return self.call('CallSync', words[0][1:], *words[1:])
        group, variant, forms = OPS[keyword]
        inner = f'{group.lower()}_op.{variant}{operands(forms, words)}'
        return f'op.{group} ({inner})' if words else f'op.{group} {inner}'

    def call(self, variant, registers, name, *words):
        if name in self.places_of_hosts:
            return f'op.Call (call_op.{variant}Host {registers} {self.places_of_hosts[name]})'
        given_words = listed([operand(word) for word in words])
        return f'op.Call (call_op.{variant} {registers} {self.callee(name)} {given_words})'

    def summary(self):
        """The names that the term leaves out: each instance with its exports."""
        return '; '.join(instance_summary(instance) for instance in self.instances) or 'no instance'

    def term(self):
        instances = listed([instance_term(instance) for instance in self.instances])
        component = f'record {{ instances = {instances}; hosts = {listed(self.hosts)} }}'
        return (f'record {{ version = version.One; handles = {self.handles}; table = {self.table}; '
                f'idle = idle_line.{self.idle.capitalize()}; '
                f'component = {component}; names = []; main = {listed(self.main)}; aborters = [] }}')


def instance_summary(instance):
    names = ', '.join(export['name'] for export in instance['exports'])
    return f'{instance["name"]}: {names}' if names else instance['name']


def instance_term(instance):
    """The term of an instance: its exports and its slots."""
    exports = [f'record {{ kind = kind.{KINDS[export["kind"]]}; params = {export["params"]}; '
               f'start = {listed(export["start"])}; react = {listed(export["react"])} }}'
               for export in instance['exports']]
    slots = f'(replicate {SLOTS} slot.Empty)'
    if instance['slots']:
        slots = listed([slot_term(instance['slots'], slot) for slot in range(SLOTS)])
    return f'record {{ exports = {listed(exports)}; slots = {slots} }}'


def slot_term(slots, slot):
    if slot not in slots:
        return 'slot.Empty'
    return 'slot.Bad' if slots[slot] is None else f'slot.Script {listed(slots[slot])}'


# ---- The report

def trap(number):
    return 'trap.' + TRAPS[int(number) - 1]


def given(code, handle, result):
    """What an event hands out."""
    if code == '1':
        return f'(given.Subtask status.{STATUSES[int(result)]} {handle})'
    return 'given.Cancelled' if code == '6' else 'given.Nothing'


def own(code):
    """The task's own event, which alone hands a wake on."""
    return 'own.Cancelled' if code == '6' else 'own.None'


def without(words, keyword):
    """The words without a last pair that begins with the keyword, and the pair's number."""
    return (words[:-2], words[-1]) if len(words) > 2 and words[-2] == keyword else (words, None)


def label(line):
    """The term of a printed label."""
    words, woken = without(line.split(' '), 'wakes')
    writes = {'main': main_label, 'future': future_label, 'trap': trap_label, 'deadlock': deadlock_label,
              'rest': rest_label}
    if words[0] in writes:
        return writes[words[0]](words[1:])
    return take_label(words[1:], woken) if words[0] == 'take' else thread_label(words[1], words[2:], woken)


def main_label(words):
    keyword, *words = words
    if keyword == 'pends':
        return 'label.Loop loop_label.MainPends'
    if words[1:2] == ['refused']:
        inner = f'{keyword.capitalize()}Refused {trap(words[2])} {words[0]}'
    elif keyword == 'abort':
        inner = f'Abort phase.{PHASES[words[1]]} {words[0]}'
    else:
        inner = MAIN_LABELS[keyword].format(words=words)
    return f'label.Main (main_label.{inner})' if ' ' in inner else f'label.Main main_label.{inner}'


def future_label(words):
    return f'label.Loop (loop_label.{FUTURE_LABELS[words[1]]} {words[0]})'


def trap_label(words):
    return f'label.Loop (loop_label.Trap {trap(words[2])} {words[1]})'


def deadlock_label(words):
    return f'label.Loop (loop_label.Deadlock {trap(words[0])})'


def rest_label(words):
    return 'label.Loop loop_label.Rest'


def take_label(words, woken):
    """The term of a taking: of a work, or of a thread's entry."""
    mark, kind, number, *more = words
    variant = {'push': 'Push', 'host': 'Host', 'thread': 'Thread'}[kind]
    fields = f'mark.{mark.capitalize()}'
    if more:
        variant = more[0].capitalize()
    if more[:1] == ['event']:
        fields += ' ' + (own(more[1]) if woken else given(*more[1:]))
    fields += f' {number}'
    return f'label.Take (take.{variant}Wakes {fields} {woken})' if woken else f'label.Take (take.{variant} {fields})'


def thread_label(thread, words, woken):
    """The term of a label of the running thread."""
    keyword, *words = words
    words, work = without(words, 'future')
    if work is None and keyword == 'pauses' and words[:1] == ['future']:
        words, work = [], words[1]
    parts = {'thread': thread, 'words': words, 'woken': woken, 'work': work}
    if keyword in ('wait', 'poll'):
        parts |= {'given': given(*words), 'own': own(words[0])}
    forms = POLLING_LABELS if work else WAKING_LABELS if woken else THREAD_LABELS
    return (forms.get(keyword) or op_label(keyword, woken)).format(**parts)


def op_label(keyword, woken):
    """The form of the labels that have the thread, an answer if there is one, and the thread woken."""
    group, variant, _ = OPS[keyword]
    answer = ' {words[0]}' if keyword in ('set', 'add', 'handle', 'load', 'store', 'ret') else ''
    ending = 'Wakes {thread} {woken}' if woken else ' {thread}' + answer
    return f'label.{group} ({group.lower()}_label.{variant}{ending})'


def outcome(line):
    """The term of a report's last line."""
    words = line.split(' ')
    if words[0] in ('done', 'host'):
        return f'(outcome.Done {words[1]})' if words[0] == 'done' else f'(outcome.HostFailed {words[2]})'
    if words[0] in ('trap', 'deadlock'):
        return f'(outcome.{words[0].capitalize()} {trap(words[1])})'
    return {'idle': 'outcome.Idle', 'out of steps': 'outcome.OutOfSteps'}[line]


# ---- The pieces

def filled(text, width=150, indent=4):
    """The text on lines of at most this width, as far as it can be broken behind list signs and fields."""
    lines, line = [], ''
    for word in text.split(' '):
        if line and len(line) + 1 + len(word) > width and line.endswith(('∷', ';', '=', '{')):
            lines.append(line)
            line = ' ' * indent + word
        else:
            line = f'{line} {word}' if line else word
    return '\n'.join([*lines, line])


def exchanges_term(exchanges):
    """The orders of releases, from words like `106:2-3,1-2`."""
    orders = []
    for word in exchanges:
        number, pairs = word.split(':')
        swaps = [f'({pair.replace("-", ", ")})' for pair in pairs.split(',')]
        orders.append(f'({number}, {" ∷ ".join([*swaps, "[]"])})')
    return listed(orders)


def definitions(name, scenario, labels):
    """The piece for a file of specs/."""
    return (f'-- {scenario.summary()}\nabbrev pub {name} : ScenarioDef\n'
            + filled(f'{name} = {scenario.term()}') + '\n\n'
            + f'abbrev pub {name}_labels : List Label\n'
            + filled(f'{name}_labels = {" ∷ ".join([*labels, "[]"])}') + '\n\n'
            + f'abbrev pub {name}_run : ScenarioDef × List Label\n{name}_run = ({name}, {name}_labels)\n')


def proof(name, steps, end, exchanges):
    """The piece for a file of proofs/."""
    return (f'pub {name}_shown : Example {name} {steps} {name}_labels {end}\nunfolding the_definitions\n'
            f'{name}_shown = example {name} {exchanges} {steps} {name}_labels {end} refl refl\n')


def function(name, steps, end, file):
    """The piece for a file of src/."""
    shown = end.strip('()').replace('outcome.', 'Outcome.').replace('trap.', 'Trap.')
    return (f'#[tactic(auto, using(crate::proofs::{file}Shown::{name}_shown))]\npub fn {name}()\n'
            f'    ensures {{ Runs the.{name}_run {steps} ({shown}) }}\n{{}}\n')


def pieces(name, steps, text, report, file='FILE', exchanges=()):
    """The definitions, the proof and the function of the example."""
    *lines, last = report.rstrip('\n').split('\n')
    end = outcome(last)
    return (definitions(name, Scenario(text), [label(line) for line in lines]),
            proof(name, steps, end, exchanges_term(exchanges)), function(name, steps, end, file))


def main(given=None):
    """The status of a call with these words, or with those of the command line."""
    import explain
    import scenario
    words = argparse.ArgumentParser(description=__doc__, formatter_class=argparse.RawDescriptionHelpFormatter)
    words.add_argument('name')
    words.add_argument('steps', type=int)
    words.add_argument('scenario')
    words.add_argument('report')
    words.add_argument('--file', default='FILE')
    words.add_argument('--exchanges', nargs='*', default=())
    said = words.parse_args(given)
    if not all(re.fullmatch(r'\d+:\d+-\d+(,\d+-\d+)*', word) for word in said.exchanges):
        words.error('an exchange is LABEL:A-B,A-B')
    try:
        explain.followed(said.scenario, said.report, None)
        text, report = (scenario.content(path).decode('ascii') for path in (said.scenario, said.report))
    except scenario.Unreadable as error:
        print(f'example: {error}', file=sys.stderr)
        return error.status
    print('\n'.join(pieces(said.name, said.steps, text, report, said.file, said.exchanges)))
    return 0


if __name__ == '__main__':
    sys.exit(main())
