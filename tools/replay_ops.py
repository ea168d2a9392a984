"""The ops of guests, as replay.py follows them."""
from machine_state import (Call, Misfit, RETURNED, RETURN_CANCELLED, START_CANCELLED, Set, WORD, Work)
from replay import CALLBACK_ENDS, Entry, NOT_ENDED, Replay, YIELDS, number
from scenario import ASYNC_KINDS


def after_call(operands, name):
    """Where the result and the answer of a call go, what is called, and its words."""
    if name == 'call':
        return operands[1], operands[0], operands[2], operands[3:]
    return None, operands[0], operands[1], operands[2:]


class Run(Replay):
    """A run: `take_in` follows one label after another."""

    def do(self, thread, name, operands, words):
        if name in ('wait', 'poll'):
            self.do_wait(thread, name, operands, words)
        elif name in ('call', 'call_sync'):
            self.do_call(thread, name, operands, words)
        elif name in ('cancel', 'cancel_sync'):
            self.do_cancel(thread, name, operands, words)
        elif name == 'exit' or name in CALLBACK_ENDS:
            self.says(name, words)
            self.end(thread, name, operands)
        elif name.startswith(('suspend', 'yield')):
            self.do_stop(thread, name, operands, words)
        else:
            answer = getattr(self, f'do_{name}')(thread, *operands)
            self.says(name if answer is None else f'{name} {answer}', words)
            thread.at += 1

    def done(self, thread, words, label):
        """The op is done, with this label."""
        self.says(label, words)
        thread.stage = None
        thread.at += 1

    def pauses(self, thread, words, future=None):
        """The op has stopped its strand."""
        self.says('pauses' if future is None else f'pauses future {future}', words)
        self.phase, self.running = 'main', None

    # ---- registers and words

    def do_set(self, thread, register, word):
        self.write(thread, register, self.value(thread, word))
        return thread.registers[register]

    def do_add(self, thread, register, word):
        self.write(thread, register, (thread.registers.get(register, 0) + self.value(thread, word)) % WORD)
        return thread.registers[register]

    def do_handle(self, thread, register, word):
        self.write(thread, register, self.value(thread, word) // 16)
        return thread.registers[register]

    def do_load(self, thread, register, word):
        self.write(thread, register, self.instances[thread.instance].words[int(word)])
        return thread.registers[register]

    def do_store(self, thread, place, word):
        value = self.value(thread, word)
        self.instances[thread.instance].words[int(place)] = value
        return value

    def do_skip_eq(self, thread, one, other, many):
        if self.value(thread, one) == self.value(thread, other):
            thread.at = min(thread.at + int(many), len(thread.script) - 1)

    # ---- tasks

    def do_ret(self, thread, word):
        value, call = self.value(thread, word), thread.call
        if call.end is not None or call.export.kind not in ASYNC_KINDS:
            raise Misfit('the task may not return here, which is trap 1 or 3')
        self.returned(call, value)
        return value

    def do_ret_bad(self, _thread, _word):
        raise Misfit('`ret_bad` always traps')

    def do_task_cancel(self, thread):
        call = thread.call
        if not call.delivered or call.end is not None:
            raise Misfit('the task may not answer a cancel here, which is trap 2 or 1')
        call.end = RETURN_CANCELLED
        self.tell(call, RETURN_CANCELLED)

    def do_bp_inc(self, thread):
        self.instances[thread.instance].backpressure += 1

    def do_bp_dec(self, thread):
        instance = self.instances[thread.instance]
        instance.backpressure -= 1
        if instance.backpressure < 0:
            raise Misfit('the backpressure was 0, which is trap 10')
        if instance.backpressure == 0:
            self.release(thread.instance)

    # ---- ends

    def end(self, thread, name, operands):
        """The end of an activation, or of a thread."""
        export, instance = thread.call.export, self.instances[thread.instance]
        self.phase, self.running = 'main', None
        if name in CALLBACK_ENDS or export.kind == 'callback' and not thread.explicit:
            return self.end_activation(thread, name, operands)
        if thread.under is not None and not thread.explicit:
            return self.end_direct(thread)
        if thread.explicit or export.kind == 'stackful':
            self.checked(thread)
            self.stop(thread)
            return self.gone(thread)
        value = thread.registers.get('r0', 0)
        if export.kind == 'sync':
            instance.do_not_suspend = thread.saved
            self.returned(thread.call, value)
        else:
            self.leave(thread.instance)
            self.returned(thread.call, value)
            self.checked(thread)
        self.stop(thread)
        return self.gone(thread)

    def end_direct(self, thread):
        if thread.call.export.kind == 'sync':
            self.instances[thread.instance].do_not_suspend = thread.saved
        else:
            self.checked(thread)
        caller, value = thread.under, thread.registers.get('r0', 0)
        thread.call.end = RETURNED
        caller.stage = ('direct', value)
        self.gone(thread)
        self.runs(caller)

    def end_activation(self, thread, name, operands):
        code = {'exit': 0, 'cb_yield': 1}.get(name)
        if code is None:
            code = self.value(thread, operands[0])
            code = 16 * code + 2 if name == 'cb_wait' else code
        self.leave(thread.instance)
        self.stop(thread)
        kind, call = code % 16, thread.call
        if code >= 2 ** 32 or kind > 2:
            raise Misfit(f'{code} is no code of a callback, which is trap 12')
        if kind == 0:
            self.checked(thread)
            return self.gone(thread)
        if kind == 1:
            call.own = call.own or 'none'
            return self.queue(thread, 'low', ('delivery', 'yield'))
        waited = self.instances[thread.instance].handles.get(code // 16)
        if not isinstance(waited, Set):
            raise Misfit(f'{code // 16} names no set, which is trap 16')
        if call.own is not None or waited.ready():
            return self.queue(thread, 'high', ('delivery', waited))
        return self.wait(thread, waited, 'callback')

    # ---- sets

    def do_set_new(self, thread, register):
        self.takes_entries(1)
        made = Set(thread.instance, 0)
        made.handle = self.new_handle(thread.instance, made)
        self.write(thread, register, made.handle)
        return made.handle

    def do_set_drop(self, thread, word):
        dropped = self.thing(thread, word, Set, 'set')
        if dropped.waiters or dropped.members:
            raise Misfit('the set has a waiter or a member, which is trap 8 or 25')
        self.free_handle(thread.instance, dropped.handle)
        self.table_use -= 1

    def do_wait(self, thread, name, operands, words):
        woken = thread.stage is not None
        waited = thread.stage[1] if woken else self.thing(thread, operands[1], Set, 'set')
        cancellable = name == 'wait' and self.waits_cancellable(thread.call)
        if name == 'poll' or woken or thread.call.own in ('none', 'cancelled' if cancellable else 'none') or waited.ready():
            event = self.event(thread, words[1:], waited, False, woken, cancellable)
            if event is None and name == 'wait':
                return self.waits(thread, waited, words)
            for place, value in enumerate(event or (0, 0, 0)):
                self.write(thread, f'r{int(operands[0][1:]) + place}', value)
            return self.done(thread, words, f'{name} {" ".join(map(str, event or (0, 0, 0)))}')
        self.checked(thread)
        return self.waits(thread, waited, words)

    def waits(self, thread, waited, words):
        self.stop(self.foot(thread))
        thread.stage = ('wait', waited)
        self.wait(thread, waited, 'op')
        self.pauses(thread, words)

    def do_join(self, thread, word, target):
        waitable = self.thing(thread, word, (Call, Work), 'subtask')
        handle = self.value(thread, target)
        joined = self.thing(thread, target, Set, 'set') if handle else None
        self.not_in_sync_call(waitable)
        self.join(waitable, joined)

    def not_in_sync_call(self, waitable):
        if waitable.join is not None and not isinstance(waitable.join, Set):
            raise Misfit(f'{waitable.name()} is in a sync call, which is trap 7')

    # ---- calls

    def do_call(self, thread, name, operands, words):
        goal, register, callee, arguments = after_call(operands, name)
        if callee in self.scenario.hosts:
            return self.call_host(thread, name, goal, register, self.scenario.hosts[callee], words)
        if thread.stage is None:
            export = self.scenario.exports[callee]
            values = [self.value(thread, word) for word in arguments]
            direct = name == 'call_sync' and export.kind not in ASYNC_KINDS
            return (self.enter if direct else self.begin_call)(thread, goal, export, values, words)
        if thread.stage[0] == 'direct':
            value = thread.stage[1]
            self.write(thread, register, value)
            return self.done(thread, words, f'call_sync {value}')
        return self.call_goes_on(thread, name, register, words)

    def enter(self, thread, _goal, export, values, words):
        call = self.new_call(export, thread, values, True)
        call.started, call.thread.under = True, thread
        self.says(f'enters thread {call.number}', words)
        self.thread_handle(call.thread)
        instance = self.instances[export.instance]
        if export.kind == 'sync':
            call.thread.saved, instance.do_not_suspend = instance.do_not_suspend, True
        self.settle(thread, 'under', call.thread)
        self.runs(call.thread)

    def begin_call(self, thread, goal, export, values, words):
        call = self.new_call(export, thread, values)
        call.goal = goal
        self.says(f'calls thread {call.number}', words)
        instance, saved = self.instances[export.instance], None
        if export.kind != 'sync':
            saved, instance.do_not_suspend = instance.do_not_suspend, False
        self.queue(call.thread, 'switch', ('start',))
        thread.stage = ('call', call, saved)
        call.thread.callers.append(thread)
        self.settle(thread, 'behind', call.thread)
        self.phase, self.running = 'main', None

    def call_goes_on(self, thread, name, register, words):
        _, call, saved = thread.stage
        if saved is not None:
            self.instances[call.export.instance].do_not_suspend = saved
        status, call.event = call.event or 0, None
        if name == 'call_sync':
            if status == RETURNED:
                self.settle_call(call)
                self.write(thread, register, call.result)
                return self.done(thread, words, f'call_sync {call.result}')
            self.checked(thread)
            self.stop(self.foot(thread))
            self.block(thread, call)
            return self.pauses(thread, words)
        answer = 2
        if status != RETURNED:
            call.handle = self.new_handle(thread.instance, call)
            answer = 16 * call.handle + status
        else:
            self.settle_call(call)
        self.write(thread, register, answer)
        return self.done(thread, words, f'call {answer}')

    def call_host(self, thread, name, goal, register, host, words):
        if thread.stage is not None:
            self.leaves_table(thread.stage[1])
            self.write(thread, register, host.value)
            return self.done(thread, words, f'call_sync {host.value}')
        work = self.new_work(host, thread, goal)
        if work.polls == 0:
            work.stage = 'ended'
            return self.host_is_ready(thread, name, goal, register, work, words)
        if work.polls is not None:
            work.polls -= 1
        self.takes_entries(1)
        work.in_table, work.group = True, thread.call.group
        work.group.members += 1
        if name == 'call':
            self.high.append(Entry('push', work))
            work.handle = self.new_handle(thread.instance, work)
            answer = 16 * work.handle + 1
            self.write(thread, register, answer)
            return self.done(thread, words, f'call {answer} future {work.number}')
        self.checked(thread)
        self.high.append(Entry('push', work))
        self.stop(self.foot(thread))
        thread.stage = ('host', work)
        self.block(thread, work)
        return self.pauses(thread, words, work.number)

    def host_is_ready(self, thread, name, goal, register, work, words):
        if work.host.value is None:
            self.says(f'fails {work.number}', words)
            self.phase = 'over'
            return
        if name == 'call':
            self.write(thread, goal, work.host.value)
        answer = 2 if name == 'call' else work.host.value
        self.write(thread, register, answer)
        self.done(thread, words, f'{name} {answer} future {work.number}')

    # ---- cancels

    def do_cancel(self, thread, name, operands, words):
        if thread.stage is not None:
            return self.cancel_goes_on(thread, name, operands, words)
        subtask = self.thing(thread, operands[1], (Call, Work), 'subtask')
        if subtask.join is not None:
            raise Misfit(f'{subtask.name()} is in a set, which is trap 7')
        if isinstance(subtask, Work):
            return self.cancel_host(thread, name, operands, subtask, words)
        if subtask.end is None and not subtask.started:
            return self.withdraw(thread, name, operands, subtask, words)
        if subtask.end is None and self.ask(subtask):
            foot = self.foot(self.switch)
            instance = self.instances[subtask.export.instance]
            saved, instance.do_not_suspend = instance.do_not_suspend, False
            subtask.join = thread
            thread.stage = ('cancel', subtask, saved)
            self.go_behind([thread], foot)
            return self.pauses(thread, words)
        return self.cancel_ends(thread, name, operands, subtask, words)

    def waits_cancellable(self, call):
        """Whether a `wait` of the task may take a cancel."""
        return self.scenario.version == 2 and call.export.kind in ASYNC_KINDS

    def waiting(self, call):
        """The threads of the call that wait so that a cancel may take them."""
        if self.waits_cancellable(call):
            return [thread for thread in self.threads.values() if thread.call is call and thread.place == 'waiting']
        thread = call.thread
        return [thread] if thread.place == 'waiting' and thread.why[0] == 'callback' else []

    def ask(self, call):
        """Gives a task that goes on its request; whether a thread of it now stands before the canceller."""
        if self.scenario.version == 2 and call.asked:
            raise Misfit(f'a cancel of {call.name()} was asked before, which is trap 5')
        call.own, call.asked, thread = 'cancelled', True, call.thread
        if waiting := self.waiting(call):
            thread, *self.cancellable = waiting
            self.wakes_cancelled(thread)
            return True
        if thread.place == 'queued' and thread.why == ('delivery', 'yield'):
            self.promote(thread)
            return True
        return False

    def cancel_host(self, thread, name, operands, work, words):
        if work.cancelled:
            raise Misfit(f'{work.name()} was cancelled before, which is trap 5')
        work.cancelled = True
        if work.stage != 'ended':
            work.aborted = work.aborted or work.stage != 'finishing'
        return self.cancel_ends(thread, name, operands, work, words)

    def withdraw(self, thread, name, operands, call, words):
        started = call.thread
        if started.place == 'queued':
            self.unqueue(started)
        else:
            self.instances[started.instance].held.remove(started)
        call.end = START_CANCELLED
        self.gone(started)
        self.write(thread, operands[0], START_CANCELLED)
        call.event = None
        return self.done(thread, words, f'{name} {START_CANCELLED}')

    def cancel_goes_on(self, thread, name, operands, words):
        kind, subtask, saved = thread.stage
        if kind == 'cancel':
            self.instances[subtask.export.instance].do_not_suspend = saved
        subtask.join = None
        return self.cancel_ends(thread, name, operands, subtask, words)

    def cancel_ends(self, thread, name, operands, subtask, words):
        """The end is answered, or that there is none, or the canceller is blocked."""
        ended = subtask.stage == 'ended' if isinstance(subtask, Work) else subtask.end is not None
        if ended:
            if subtask.event is None or subtask.event < RETURNED:
                raise Misfit(f'the end of {subtask.name()} was handed out before, which is trap 5')
            status, subtask.event = subtask.event, None
            self.write(thread, operands[0], status)
            return self.done(thread, words, f'{name} {status}')
        if name == 'cancel':
            self.write(thread, operands[0], NOT_ENDED)
            return self.done(thread, words, f'cancel {NOT_ENDED}')
        subtask.join, thread.stage = thread, ('end', subtask, None)
        self.checked(thread)
        self.stop(self.foot(thread))
        self.block(thread, subtask)
        return self.pauses(thread, words)

    def do_drop(self, thread, word):
        subtask = self.thing(thread, word, (Call, Work), 'subtask')
        self.not_in_sync_call(subtask)
        ended = subtask.stage == 'ended' if isinstance(subtask, Work) else subtask.end is not None
        if not ended or subtask.event is not None:
            raise Misfit(f'{subtask.name()} has not ended, or its end was not handed out, which is trap 6')
        self.join(subtask, None)
        self.free_handle(thread.instance, subtask.handle)
        subtask.handle = None
        if isinstance(subtask, Work):
            self.leaves_table(subtask)
        else:
            self.settle_call(subtask)

    # ---- threads

    def do_thread_new(self, thread, register, slot, word):
        script = self.scenario.slots.get((thread.instance, int(slot)))
        if script is None:
            raise Misfit(f'no script stands in slot {slot}, which is trap 13 or 14')
        self.takes_entries(2)
        made = self.new_thread(thread.call, script, True, {'r0': self.value(thread, word)})
        thread.call.live += 1
        self.write(thread, register, self.thread_handle(made))
        return f'{made.handle} thread {made.number}'

    def do_thread_index(self, thread, register):
        self.write(thread, register, thread.handle)
        return thread.handle

    def named(self, thread, word):
        """The other thread that a thread handle names."""
        handle = self.value(thread, word)
        found = self.instances[thread.instance].thread_handles.get(handle)
        if found is None:
            raise Misfit(f'{handle} names no thread, which is trap 16')
        if found is thread:
            raise Misfit('a thread names itself, which is trap 11')
        return found

    def resumed(self, thread, word, mark):
        other = self.named(thread, word)
        if not (other.place == 'suspended' or other.place == 'new' and other.explicit):
            raise Misfit(f'thread {other.number} is neither new nor suspended, which is trap 11')
        self.queue(other, mark, ('start',) if other.place == 'new' else ('resumption',))

    def do_resume_later(self, thread, word):
        self.resumed(thread, word, 'low')

    def do_stop(self, thread, name, operands, words):
        """An op that suspends or yields, also in favour of another thread."""
        if thread.stage is not None:
            return self.done(thread, words, name)
        moved = False
        if name.endswith('resume'):
            self.resumed(thread, operands[0], 'switch')
            moved = True
        elif name.endswith('promote'):
            other = self.named(thread, operands[0])
            if other.place == 'queued' and other.stage is not None and other.stage[0] == 'yield':
                self.promote(other)
                moved = True
        if not moved and not self.check(thread.instance):
            if name.startswith('suspend'):
                raise Misfit('the thread may not suspend here, which is trap 9')
            return self.done(thread, words, name)
        self.stop(self.foot(thread))
        thread.stage = ('yield',) if name in YIELDS else ('suspend',)
        if name in YIELDS:
            self.queue(thread, 'low', ('resumption',))
        else:
            self.settle(thread, 'suspended')
        return self.pauses(thread, words)
