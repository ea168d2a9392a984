"""Follows a report through its text, label by label, and keeps the state that each label leads to.

A label that can't stand where it does, in a run of this text, is a Misfit. So a report of another text is found out, and one that was
changed, but for what only the table's places and the two limits decide: which waiter is woken, the order within a release, traps 17 and
18. A trap ends the run, and its number is only asked to be one that the op can have.
"""
from machine_state import Call, Misfit, Moves, RETURN_CANCELLED, RETURNED, Set, Thread

NOT_ENDED = 4294967295
CALLBACK_ENDS = ('cb_yield', 'cb_wait', 'code')
YIELDS = ('yield', 'yield_then_resume', 'yield_then_promote')
PHASES = {False: 'running', True: 'requested'}
# The traps that an op can come to, and a taking. An op that isn't named comes to none.
TRAPS = {'ret': '1 3', 'ret_bad': '1 3', 'task_cancel': '1 2', 'exit': '4 9', 'cb_yield': '12', 'cb_wait': '12 16', 'code': '4 9 12 16',
         'set_new': '17 18', 'set_drop': '8 16 25', 'wait': '9 16', 'poll': '16', 'join': '7 16', 'call': '17 18',
         'call_sync': '9 17 18', 'cancel': '5 7 16', 'cancel_sync': '5 7 9 16', 'drop': '6 7 16', 'bp_inc': '10', 'bp_dec': '10',
         'thread_new': '13 14 17 18', 'resume_later': '11 16', 'suspend': '9', 'suspend_then_resume': '11 16',
         'yield_then_resume': '11 16', 'suspend_then_promote': '9 11 16', 'yield_then_promote': '11 16', 'take': '17'}


class Entry:
    """An entry of a work at high."""

    def __init__(self, kind, work):
        self.kind, self.work, self.object = kind, work, 'high'


class Replay(Moves):
    """The run so far: `take_in` follows one more label."""

    def __init__(self, scenario):
        super().__init__(scenario)
        self.phase, self.ended, self.running, self.polled = 'main', False, None, 0
        self.main_at, self.main_registers, self.starts, self.spawns = 0, {}, [], []
        self.trapped, self.taken, self.main_since = False, None, None
        self.op = None

    # ---- one label

    def take_in(self, label):
        """Follows the label; `op` is then the op that it is about, `changes` the registers written, `moved` the threads that moved."""
        self.row += 1
        self.op, self.changes, self.moved, self.wakes = None, [], [], None
        words = label.split(' ')
        if len(words) > 2 and words[-2] == 'wakes':
            self.wakes = number(words[-1])
            words = words[:-2]
        self.settle_turn()
        if self.phase == 'over':
            raise Misfit('the run was over before this label')
        begins = {'main': self.main, 'future': self.future, 'take': self.take, 'thread': self.thread, 'trap': self.trap, 'rest': self.rest,
                  'deadlock': self.deadlock}.get(words[0])
        if begins is None:
            raise Misfit(f'{words[0]!r} begins no label')
        begins(words[1:])
        if self.wakes is not None:
            raise Misfit('nobody is woken here')

    def settle_turn(self):
        """The moves of a turn that have no label."""
        if self.phase == 'futures' and not any(work.number > self.polled for work in self.live_works):
            self.phase = 'take'
        if self.phase == 'take' and self.ended and self.next_entry() is None:
            self.phase, self.ended = 'main', False

    def next_entry(self):
        return self.switch or (self.high[0] if self.high else self.low[0] if self.low else None)

    def is_at(self, phase, what):
        if self.phase != phase:
            now = {'main': 'main has the turn', 'futures': 'live works are polled', 'take': 'an entry is to be taken',
                   'run': f'thread {self.running.number if self.running else 0} runs'}[self.phase]
            raise Misfit(f'{what} can\'t stand here, where {now}')

    def says(self, label, words):
        """The words of the label are these."""
        if ' '.join(words) != str(label):
            raise Misfit(f'a run of the text has `{label}` here')

    def rest(self, words):
        self.is_at('take', 'a rest')
        if words or self.next_entry() is not None or not any(goes_on(work) for work in self.live_works):
            raise Misfit('there is something to take, or nothing to wait for')
        self.phase = 'main'

    def deadlock(self, words):
        self.is_at('take', 'a deadlock')
        if self.next_entry() is not None or self.live_works or words not in (['9'], ['15']):
            raise Misfit('something can go on here')
        if self.scenario.idle != 'trap':
            raise Misfit('the text has `idle wait`, which knows no deadlock')
        self.phase = 'over'

    # ---- main

    def main(self, words):
        self.is_at('main', 'a label of main')
        if self.main_at >= len(self.scenario.main):
            raise Misfit('main has no more ops')
        self.op = self.scenario.main[self.main_at]
        name, *operands = self.op.words
        pends = self.main_pends(name, operands)
        if words == ['pends']:
            if not pends:
                raise Misfit(f'main goes on here, with `{self.op}`')
            self.phase, self.polled, self.ended = 'futures', 0, False
            self.main_since = self.main_since or self.row
            return
        if pends:
            raise Misfit(f'main waits here, at `{self.op}`')
        if not words or words[0] != name:
            raise Misfit(f'main is at `{self.op}`')
        getattr(self, f'main_{name}')(operands, words)
        self.main_at += 1
        self.main_since = None

    def main_pends(self, name, operands):
        if name == 'finish':
            start = self.starts[int(operands[0]) - 1]
            return isinstance(start, Call) and start.end != RETURNED
        if name == 'await':
            return self.spawns[int(operands[0]) - 1].stage != 'ended'
        if name == 'ready':
            instance = self.instances[self.scenario.exports[operands[0]].instance]
            return instance.do_not_enter or instance.backpressure > 0
        return name == 'quiet' and self.interesting > 0

    def main_value(self, word):
        return self.main_registers.get(word, 0) if word[0] == 'r' else int(word)

    def main_start(self, operands, words):
        count = len(self.starts) + 1
        if words[1:3] == [str(count), 'refused']:
            if not self.trapped and self.table_use + 4 <= self.scenario.table:
                raise Misfit('the table has room for this start')
            self.says(f'start {count} refused {20 if self.trapped else 18}', words)
            self.starts.append(words[3])
            self.trapped = True
            self.finish_groups()
            return
        if self.trapped:
            raise Misfit('the store is trapped, so that this start is refused with 20')
        call = self.new_call(self.scenario.exports[operands[0]], None, [self.main_value(word) for word in operands[1:]])
        self.starts.append(call)
        self.queue(call.thread, 'high', ('start',))
        self.says(f'start {count} thread {call.number}', words)

    def main_finish(self, operands, words):
        start = self.starts[int(operands[0]) - 1]
        if not isinstance(start, Call):
            return self.says(f'finish {operands[0]} refused {start}', words)
        self.main_registers[operands[1]] = start.result
        self.changes.append((None, operands[1], start.result))
        self.says(f'finish {operands[0]} = {start.result}', words)

    def main_spawn(self, operands, words):
        work = self.new_work(self.scenario.hosts[operands[0]], None, None)
        self.spawns.append(work)
        self.high.append(Entry('push', work))
        self.says(f'spawn {len(self.spawns)} future {work.number}', words)

    def main_abort(self, operands, words):
        work = self.spawns[int(operands[0]) - 1]
        self.says(f'abort {operands[0]} {"complete" if work.stage == "ended" else PHASES[work.aborted]}', words)
        work.aborted = True

    def main_await(self, operands, words):
        self.says(f'await {operands[0]}', words)

    def main_quiet(self, _, words):
        self.says('quiet', words)

    def main_ready(self, _, words):
        self.says('ready', words)

    def main_answer(self, operands, words):
        self.says(f'answer {self.main_value(operands[0])}', words)
        self.phase = 'over'

    # ---- works

    def future(self, words):
        self.is_at('futures', 'a poll')
        work = next(work for work in self.live_works if work.number > self.polled)
        if len(words) != 2 or words[0] != str(work.number):
            raise Misfit(f'future {work.number} is polled here')
        comes = 'ends' if work.aborted else 'pends' if work.polls is None or work.polls > 0 else 'fails' if work.host.value is None else 'ends'
        self.says(f'{work.number} {comes}', words)
        self.polled = work.number
        if comes == 'pends':
            if work.polls is not None:
                work.polls -= 1
        elif comes == 'fails':
            self.phase = 'over'
        else:
            self.work_ends(work)

    def work_ends(self, work):
        self.live_works.remove(work)
        work.with_value, work.since = not work.aborted, self.row
        self.phase, self.ended = 'take', True
        if work.caller is None:
            work.stage = 'ended'
        elif work.goal is None:
            work.stage = 'ended'
            self.queue(self.blocked.pop(work), 'high', ('resumption',))
        else:
            work.stage = 'finishing'
            self.high.append(Entry('host', work))

    # ---- takings

    def take(self, words):
        self.is_at('take', 'a taking')
        entry = self.next_entry()
        if entry is None:
            raise Misfit('no entry is at a mark')
        mark = 'switch' if self.switch is not None else 'high' if self.high else 'low'
        if len(words) < 3 or words[1] == 'thread' and not isinstance(entry, Thread):
            raise Misfit(f'a run of the text has `take {mark} {entry.kind} {entry.work.number}` here' if isinstance(entry, Entry)
                         else f'thread {entry.number} is taken here')
        if isinstance(entry, Thread) and words[1] == 'thread':
            entry = self.in_order(entry, number(words[2]))
        what = f'{mark} thread {entry.number}' if isinstance(entry, Thread) else f'{mark} {entry.kind} {entry.work.number}'
        self.says(what, words[:3])
        self.unqueue(entry)
        self.phase, self.ended = 'main', False
        if isinstance(entry, Thread):
            return self.take_thread(entry, words[3:])
        self.says(what, words)
        if entry.kind == 'push':
            entry.work.stage = 'live'
            self.live_works.append(entry.work)
            return None
        return self.take_host(entry.work)

    def in_order(self, entry, wanted):
        """The thread that is taken: of those that one release queued, or that a cancel could take, whichever the label names."""
        other = self.threads.get(wanted)
        others, self.cancellable = self.cancellable, []
        if entry.object == 'switch' and any(other is one for one in others):
            return self.instead(entry, other)
        if other is entry or other is None or entry.batch == 0 or other.batch != entry.batch or other.place != 'queued':
            return entry
        place = self.high.index(other)
        if entry.object == 'switch':
            self.switch, self.high[place] = other, entry
        else:
            at = self.high.index(entry)
            self.high[at], self.high[place] = other, entry
        entry.object, other.object = other.object, entry.object
        entry.callers, other.callers = other.callers, entry.callers
        for thread in (entry, other):
            for caller in thread.callers:
                caller.object = thread
        return other

    def take_host(self, work):
        work.stage = 'ended'
        if work.with_value and work.caller.place != 'ended':
            self.write(work.caller, work.goal, work.host.value)
        self.publish(work, RETURNED if work.with_value else RETURN_CANCELLED)

    def take_thread(self, thread, rest):
        instance, kind = self.instances[thread.instance], thread.why[0]
        thread.batch = 0
        if kind in ('start', 'delivery') and not instance.admits(thread):
            self.says('held', rest)
            return self.hold(thread)
        if kind == 'delivery':
            return self.deliver(thread, rest)
        self.says('', rest)
        if kind == 'start':
            self.begin(thread)
        self.runs(thread)
        return None

    def hold(self, thread):
        self.instances[thread.instance].held.append(thread)
        self.settle(thread, 'held')
        if thread.why[0] == 'start' and not thread.call.told_starting:
            thread.call.told_starting = True
            self.tell(thread.call, 0)
        self.stop(thread)

    def begin(self, thread):
        """A start is admitted."""
        if thread.explicit:
            return
        instance, call = self.instances[thread.instance], thread.call
        call.started = True
        self.thread_handle(thread)
        self.tell(call, 1)
        if call.export.kind == 'sync':
            thread.saved, instance.do_not_suspend = instance.do_not_suspend, True
        elif call.export.kind in ('blocking', 'callback'):
            instance.do_not_enter, instance.inside = True, thread

    def runs(self, thread):
        self.settle(thread, 'running')
        self.running, self.phase = thread, 'run'

    def deliver(self, thread, rest):
        """A delivery is admitted."""
        waited = thread.why[1]
        if rest == ['again']:
            self.wait(thread, waited, 'callback')
            return self.stop(thread)
        if len(rest) != 4 or rest[0] != 'event':
            raise Misfit('a delivery runs here, with an event')
        event = self.event(thread, rest[1:], waited if isinstance(waited, Set) else None, True)
        if event is None and isinstance(waited, Set):
            raise Misfit('nothing is there to be delivered')
        self.says(' '.join(map(str, event or (0, 0, 0))), rest[1:])
        for place, value in enumerate(event or (0, 0, 0)):
            self.write(thread, f'r{place}', value)
        instance = self.instances[thread.instance]
        instance.do_not_enter, instance.inside = True, thread
        thread.script, thread.at, thread.stage = thread.call.export.react, 0, None
        self.runs(thread)
        return None

    def event(self, thread, words, waited, by_callback, woken=None, cancellable=False):
        """What the task is given; `words` name the member that is. A woken thread that takes the own event hands its wake on."""
        call = thread.call
        own = call.own
        if own == 'none' or own == 'cancelled' and (by_callback or cancellable):
            call.own = None
            call.delivered = call.delivered or own == 'cancelled'
            if waited is not None and waited.ready() and (woken or by_callback):
                self.wake(waited)
            return (6, 0, 0) if own == 'cancelled' else (0, 0, 0)
        ready = waited.ready() if waited is not None else []
        if not ready:
            return None
        found = self.instances[thread.instance].handles.get(number(words[1])) if len(words) == 3 else None
        if not any(member is found for member in ready):
            raise Misfit(f'the event is of a ready member, {" or ".join(str(member.handle) for member in ready)}')
        status, found.event = found.event, None
        return (1, found.handle, status)

    # ---- threads

    def thread(self, words):
        self.is_at('run', 'a label of a thread')
        thread = self.running
        if len(words) < 2 or number(words[0]) != thread.number:
            raise Misfit(f'thread {thread.number} runs here')
        self.op = thread.op()
        name = self.op.words[0] if self.op else 'exit'
        if words[1] not in (name, 'pauses', 'calls', 'enters', 'fails'):
            raise Misfit(f'thread {thread.number} is at `{self.op}`' if self.op else f'thread {thread.number} is at its script\'s end')
        self.do(thread, name, self.op.words[1:] if self.op else [], words[1:])

    def do(self, thread, name, operands, words):
        raise NotImplementedError

    def trap(self, words):
        """A step trapped; what it has changed before is gone with it."""
        if len(words) != 3 or words[0] != 'thread':
            raise Misfit('a trap names its thread and its number')
        if self.phase == 'run':
            thread = self.running
            self.op = thread.op()
            name = self.op.words[0] if self.op else 'exit'
        else:
            self.is_at('take', 'a trap')
            thread, name = self.next_entry(), 'take'
            if isinstance(thread, Thread):
                thread = self.in_order(thread, number(words[1]))
            self.taken = thread
        if not isinstance(thread, Thread) or words[1] != str(thread.number):
            raise Misfit('the step that trapped is of another thread')
        if words[2] not in TRAPS.get(name, '').split() or self.has_room(words[2], name):
            raise Misfit(f'`{self.op or name}` comes to no trap {words[2]} here')
        if name == 'take' and (thread.explicit or thread.why[0] != 'start' or not self.instances[thread.instance].admits(thread)):
            raise Misfit('only a start that is let in traps at its taking')
        self.phase, self.running, self.trapped = 'over', thread, True


    def has_room(self, trap, name):
        """Whether the limit that the trap is about isn't reached."""
        if trap == '18':
            callee = self.op.words[{'call': 3, 'call_sync': 2}[name]] if name in ('call', 'call_sync') else None
            host = callee in self.scenario.hosts
            return self.table_use + (1 if host or name == 'set_new' else 2 if name == 'thread_new' else 3) <= self.scenario.table
        return trap == '17' and self.live_handles < self.scenario.handles


def goes_on(work):
    return work.polls is not None or work.aborted


def number(word):
    """The number of a label's word, or a Misfit."""
    if not word.isdigit() or not word.isascii() or len(word) > 20:
        raise Misfit(f'{word[:30]!r} is no number')
    return int(word)
