"""The state of a run as docs/MACHINE.md has it, as far as a report and its text determine it, and the moves on it.

It is kept by replay.py, which follows a report. The table's entries are counted, and their places are not kept: which waiter is woken
and in which order a release puts its threads is read off the labels, where the program goes by those places.
"""
import dataclasses

RETURNED, START_CANCELLED, RETURN_CANCELLED = 2, 3, 4
WORD = 2 ** 64


class Misfit(Exception):
    """A label that can't stand here in a run of the text."""


@dataclasses.dataclass(eq=False)
class Group:
    """A call of main and all that comes of it; how many calls and host calls of it are in the table."""
    members: int = 0


@dataclasses.dataclass(eq=False)
class Thread:
    """A thread. Its place is `new`, `queued`, `running`, `under`, `behind`, `waiting`, `blocked`, `held`, `suspended` or `ended`; what
    goes with it (a mark, a thread, a set, a subtask) is its object."""
    number: int
    call: object
    instance: int
    explicit: bool
    script: list
    at: int = 0
    stage: tuple | None = None
    registers: dict = dataclasses.field(default_factory=dict)
    handle: int | None = None
    place: str = 'new'
    object: object = None
    why: tuple | None = None
    since: int = 0
    batch: int = 0
    callers: list = dataclasses.field(default_factory=list)
    under: object = None
    saved: bool = False
    waited: tuple | None = None

    def op(self):
        """The op at its place, or None at its script's end."""
        return self.script[self.at] if self.at < len(self.script) else None


@dataclasses.dataclass(eq=False)
class Call:
    """A call of an export; its caller is a thread, or None for main."""
    number: int
    export: object
    caller: object
    direct: bool = False
    started: bool = False
    told_starting: bool = False
    end: int | None = None
    event: int | None = None
    own: str | None = None
    asked: bool = False
    delivered: bool = False
    exited: bool = False
    interesting: bool = True
    result: int | None = None
    goal: str | None = None
    join: object = None
    handle: int | None = None
    thread: object = None
    live: int = 1
    group: object = None
    in_table: bool = True

    def __str__(self):
        return f'call {self.number}'

    def name(self):
        """How it is spoken of."""
        return f'call {self.number} of {self.export.name}'


@dataclasses.dataclass(eq=False)
class Work:
    """A host's work: of an async call (its goal is a register), of a sync one, or a spawn of main (no caller)."""
    number: int
    host: object
    caller: object
    goal: str | None
    polls: int | None
    stage: str = 'queued'
    aborted: bool = False
    cancelled: bool = False
    with_value: bool = True
    event: int | None = None
    join: object = None
    handle: int | None = None
    since: int = 0
    group: object = None
    in_table: bool = False

    def __str__(self):
        return f'future {self.number}'

    def name(self):
        """How it is spoken of."""
        return f'future {self.number} of host {self.host.name}'


@dataclasses.dataclass(eq=False)
class Set:
    """A waitable set that a guest made, its members and its waiters."""
    instance: int
    handle: int
    members: list = dataclasses.field(default_factory=list)
    waiters: list = dataclasses.field(default_factory=list)

    def ready(self):
        """The members that have an event."""
        return [member for member in self.members if member.event is not None]


class Instance:
    """An instance: its flags, its words and its handles."""

    def __init__(self, name):
        self.name, self.words, self.backpressure = name, [0] * 16, 0
        self.do_not_enter = self.do_not_suspend = False
        self.handles, self.freed, self.thread_handles, self.freed_threads = {}, [], {}, []
        self.held, self.inside = [], None

    def admits(self, thread):
        """Whether an entry of this thread would be let in."""
        if thread.why[0] == 'delivery':
            return not self.do_not_enter
        if thread.explicit or thread.call.export.kind == 'sync':
            return True
        return not self.do_not_enter and self.backpressure == 0


def given(handles, freed, thing):
    """A new handle: the one freed last, else one more than all that were given."""
    handle = freed.pop() if freed else len(handles) + 1
    handles[handle] = thing
    return handle


class Moves:
    """What Put, Check, Stop, Publish, Wake and Release change."""

    def __init__(self, scenario):
        self.scenario, self.row = scenario, 0
        self.instances = [Instance(name) for name in scenario.instances]
        self.threads, self.calls, self.works, self.live_works = {}, {}, {}, []
        self.threads_made = self.works_made = self.batches = 0
        self.switch, self.high, self.low, self.cancellable = None, [], [], []
        self.blocked, self.interesting = {}, 0
        self.table_use, self.live_handles, self.groups = 0, 0, set()
        self.wakes, self.moved, self.changes = None, [], []

    def settle(self, thread, place, thing=None):
        """The thread is at this place from this label on."""
        thread.place, thread.object, thread.since = place, thing, self.row
        self.moved.append(thread)

    def write(self, thread, register, value):
        thread.registers[register] = value
        self.changes.append((thread.number, register, value))

    def foot(self, thread):
        while thread.under is not None:
            thread = thread.under
        return thread

    def queue(self, thread, mark, why, batch=0):
        """Puts the thread's entry at the mark."""
        thread.why, thread.batch = why, batch
        if mark == 'switch':
            if self.switch is not None:
                self.switch.object = 'high'
                self.high.insert(0, self.switch)
            self.switch = thread
        else:
            (self.high if mark == 'high' else self.low).append(thread)
        self.settle(thread, 'queued', mark)

    def unqueue(self, thread):
        if self.switch is thread:
            self.switch = None
        else:
            queue = self.high if thread.object == 'high' else self.low
            queue.remove(thread)

    def promote(self, thread):
        """Moves a queued thread's entry to switch, if none is there."""
        if self.switch is None:
            self.unqueue(thread)
            self.switch, thread.object = thread, 'switch'

    def check(self, instance):
        """Whether a thread of the instance may stop, after the promotion that this may need."""
        if not self.instances[instance].do_not_suspend or self.switch is not None:
            return True
        for entry in (*self.high, *self.low):
            if isinstance(entry, Thread) and entry.instance == instance:
                self.promote(entry)
                return True
        return False

    def checked(self, thread):
        if not self.check(thread.instance):
            raise Misfit(f'thread {thread.number} may not stop here, which is trap 9')

    def go_behind(self, callers, thread):
        foot = self.foot(thread)
        for caller in callers:
            foot.callers.append(caller)
            self.settle(caller, 'behind', foot)

    def stop(self, foot):
        """The strand with this foot stops: its callers go on."""
        callers, foot.callers = foot.callers, []
        if self.switch is not None:
            self.go_behind(callers, self.switch)
        elif callers:
            *others, newest = callers
            self.queue(newest, 'switch', ('resumption',))
            for caller in others:
                self.queue(caller, 'high', ('resumption',))

    def publish(self, waitable, status):
        """Tells the status to who waits for it."""
        waitable.event = status
        if (thread := self.blocked.pop(waitable, None)) is not None:
            self.queue(thread, 'high', ('resumption',))
        if isinstance(waitable.join, Set):
            self.wake(waitable.join)

    def block(self, thread, waitable):
        self.blocked[waitable] = thread
        self.settle(thread, 'blocked', waitable)

    def wake(self, waited):
        """Wakes the waiter that the label names."""
        if not waited.waiters:
            return
        number, self.wakes = self.wakes, None
        found = [thread for thread in waited.waiters if thread.number == number]
        if not found:
            wanted = ' or '.join(str(thread.number) for thread in waited.waiters)
            raise Misfit(f'a waiter of set {waited.handle} of {self.instances[waited.instance].name} is woken here, thread {wanted}')
        waited.waiters.remove(found[0])
        by_callback = found[0].why[0] == 'callback'
        self.queue(found[0], 'high', ('delivery', waited) if by_callback else ('resumption',))

    def wakes_cancelled(self, thread):
        """A thread that waits goes to switch, as a cancel takes it."""
        thread.waited = (thread.object, thread.why)
        thread.object.waiters.remove(thread)
        self.queue(thread, 'switch', ('delivery', 'cancel') if thread.why[0] == 'callback' else ('resumption',))

    def instead(self, thread, other):
        """The cancel took the other thread, and not this one."""
        callers, thread.callers = thread.callers, []
        self.switch = None
        waited, why = thread.waited
        thread.why = why
        waited.waiters.append(thread)
        self.settle(thread, 'waiting', waited)
        self.wakes_cancelled(other)
        other.callers = callers
        for caller in callers:
            caller.object = other
        return other

    def wait(self, thread, waited, how):
        """The thread waits on the set; `how` is `callback` or `op`."""
        thread.why = (how,)
        waited.waiters.append(thread)
        self.settle(thread, 'waiting', waited)

    def join(self, waitable, target):
        """Moves the waitable to a set, to a thread's own set, or to none."""
        if isinstance(waitable.join, Set):
            waitable.join.members.remove(waitable)
        waitable.join = target
        if isinstance(target, Set):
            target.members.append(waitable)
            if waitable.event is not None:
                self.wake(target)

    def release(self, number):
        """The held threads that are admitted now are queued. Their order shows when they are taken."""
        instance = self.instances[number]
        admitted = sorted((thread for thread in instance.held if instance.admits(thread)), key=lambda one: one.number)
        if admitted:
            self.batches += 1
            instance.held = [thread for thread in instance.held if thread not in admitted]
            for thread in admitted:
                self.queue(thread, 'high', thread.why, self.batches)

    def leave(self, number):
        """An activation leaves the instance."""
        self.instances[number].do_not_enter, self.instances[number].inside = False, None
        self.release(number)

    # ---- what is made and goes

    def takes_entries(self, many):
        """That many entries of the table are taken."""
        self.table_use += many
        if self.table_use > self.scenario.table:
            raise Misfit(f'the table has no room for {many} more, which is trap or refusal 18')

    def takes_handle(self):
        self.live_handles += 1
        if self.live_handles > self.scenario.handles:
            raise Misfit('no more handles may be live, which is trap 17')

    def leaves_table(self, subtask):
        """A call or a host call leaves the table, and its group with the last one."""
        subtask.in_table = False
        self.table_use -= 1
        subtask.group.members -= 1
        if subtask.group.members == 0 and subtask.group in self.groups:
            self.groups.remove(subtask.group)
            self.table_use -= 1

    def new_group(self):
        group = Group()
        self.groups.add(group)
        return group

    def finish_groups(self):
        """The store is trapped, and so no group is left."""
        self.table_use -= len(self.groups)
        self.groups.clear()

    def settle_call(self, call, result_waits=False):
        """The call leaves the table if nothing keeps it: a thread, a handle, an end or a result that is still to be told."""
        if call.in_table and call.live == 0 and call.handle is None and (call.event or 0) < RETURNED and not result_waits:
            self.leaves_table(call)

    def new_thread(self, call, script, explicit, registers):
        self.threads_made += 1
        instance = call.export.instance
        thread = Thread(self.threads_made, call, instance, explicit, script, registers=registers, since=self.row)
        self.threads[thread.number] = thread
        self.moved.append(thread)
        return thread

    def new_call(self, export, caller, words, direct=False):
        self.takes_entries(4 if caller is None else 3)
        call = Call(self.threads_made + 1, export, caller, direct, group=self.new_group() if caller is None else caller.call.group)
        call.group.members += 1
        call.thread = self.new_thread(call, export.start, False, {f'r{place}': value for place, value in enumerate(words)})
        self.calls[call.number] = call
        self.interesting += 1
        return call

    def new_work(self, host, caller, goal):
        self.works_made += 1
        work = Work(self.works_made, host, caller, goal, host.polls, since=self.row)
        self.works[work.number] = work
        return work

    def thread_handle(self, thread):
        self.takes_handle()
        instance = self.instances[thread.instance]
        thread.handle = given(instance.thread_handles, instance.freed_threads, thread)
        return thread.handle

    def new_handle(self, number, thing):
        self.takes_handle()
        instance = self.instances[number]
        return given(instance.handles, instance.freed, thing)

    def free_handle(self, number, handle):
        instance = self.instances[number]
        del instance.handles[handle]
        instance.freed.append(handle)
        self.live_handles -= 1

    def thing(self, thread, word, kinds, what):
        """What a handle names; it has to be of one of these kinds."""
        handle = self.value(thread, word)
        found = self.instances[thread.instance].handles.get(handle)
        if not isinstance(found, kinds):
            raise Misfit(f'{handle} names no {what} of {self.instances[thread.instance].name}, which is trap 16')
        return found

    def value(self, thread, word):
        return thread.registers.get(word, 0) if word[0] == 'r' else int(word)

    def gone(self, thread):
        """The thread ends, or is withdrawn."""
        instance, call = self.instances[thread.instance], thread.call
        if thread.handle is not None:
            del instance.thread_handles[thread.handle]
            instance.freed_threads.append(thread.handle)
            self.live_handles -= 1
        self.table_use -= 2
        self.settle(thread, 'ended')
        del self.threads[thread.number]
        call.live -= 1
        if not thread.explicit:
            call.exited = True
        if call.interesting and call.exited and call.end is not None:
            call.interesting = False
            self.interesting -= 1
        if call.live == 0 and call.end is None:
            raise Misfit(f'the last thread of {call.name()} ends without a result, which is trap 4')
        self.settle_call(call)

    def returned(self, call, value):
        """The call returns: its result goes where it is wanted, and who called hears of it."""
        call.end, call.result = RETURNED, value
        if call.goal is not None and call.caller.place != 'ended':
            self.write(call.caller, call.goal, value)
        self.tell(call, RETURNED)

    def tell(self, call, status):
        if call.caller is not None and not call.direct:
            self.publish(call, status)
