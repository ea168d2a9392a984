"""Texts to measure on: short scripts whose runs go on for as many steps as they are given."""

HEAD = "scenario 1\nhandles 100000\ntable 1000000\nidle trap\n"
FOREVER = ("export f callback 0", "cb_yield", "react")


def text(*lines):
    """The lines behind the head, and a main behind them that starts what stands there and finishes the first call."""
    return HEAD + "".join(line + "\n" for line in lines)


def main(*starts):
    return ("main", *starts, "finish 1 r0", "answer r0", "end")


def yields():
    """Two callbacks yield in turns."""
    return text("instance a", *FOREVER, "cb_yield", *main("start a.f", "start a.f"))


def plain_ops():
    """A script of 4,001 plain ops, again and again."""
    ops = ("add r3 1", "set r4 r3", "store 2 r4", "load r5 2", "skip_eq r5 0 3") * 800
    return text("instance a", *FOREVER, *ops, "cb_yield", *main("start a.f"))


def wide_ops():
    """Plain ops whose numbers have 5 to 20 digits."""
    numbers = [int("9876543210" * 2) % 10**digits + 10 ** (digits - 1) for digits in range(5, 20)]
    ops = [op for number in numbers for op in (f"set r3 {number}", f"add r3 {number}", "store 2 r3", "load r5 2")]
    return text("instance a", *FOREVER, *(ops * 60), "cb_yield", *main("start a.f"))


def threads():
    """Two tasks make threads, which yield, suspend, and are resumed and promoted."""
    scripts = ("thread 0", *("yield",) * 4, "thread 1", "suspend", "yield")
    makes = ("thread_new r3 0 r1", "thread_new r4 1 r1", "resume_later r3", "resume_later r4")
    ops = (*makes, "yield", "yield_then_promote r3", "resume_later r4", "cb_yield")
    return text("instance a", *scripts, *FOREVER, *ops, *main("start a.f", "start a.f"))


def store_works(count):
    """So many works of hosts pend, and the loop rests."""
    ops = ("main", *("spawn h",) * count, "await 1", "answer r0", "end")
    return text("host h polls 1000000 value 1", *ops)


def direct_calls():
    """Sync calls of blocking exports, each of which calls a sync one."""
    exports = ("instance a", "export s sync 1", "add r0 1", "instance b", "export s blocking 1", "call_sync r0 a.s r0", "add r0 1")
    return text(*exports, "instance c", *FOREVER, *("call_sync r4 b.s r4",) * 100, "cb_yield", *main("start c.f"))


def held_calls(count):
    """So many calls of one instance, of which one at a time is entered and waits for a host."""
    exports = ("host h polls 256 value 1", "instance a", *FOREVER, "call_sync r3 h", "cb_yield")
    return text(*exports, *main(*("start a.f",) * count))


def barred_calls(count):
    """So many calls of one instance, of which the first keeps the others out by backpressure, and yields on."""
    return text("instance a", "export f callback 0", "bp_inc", "cb_yield", "react", "cb_yield", *main(*("start a.f",) * count))


def waiters(count):
    """So many threads wait on one set, and a subtask wakes one after the other."""
    scripts = ("host h polls 1 value 1", "instance a", "thread 0", *("wait r5 1",) * 2000)
    makes = ("export f callback 0", "set_new r3", *("thread_new r4 0 0", "resume_later r4") * count, "cb_yield")
    ops = ("react", "call r5 r8 h", "handle r6 r5", "join r6 1", *("yield",) * 3, "join r6 0", "drop r6", "cb_yield")
    return text(*scripts, *makes, *ops, *main("start a.f"))


def woken_pairs(count):
    """So many threads wait on one set, and two are woken at a time, of which the second finds no event and waits again."""
    scripts = ("host h polls 1 value 1", "instance a", "thread 0", *("wait r5 1",) * 2000)
    makes = ("export f callback 0", "set_new r3", *("thread_new r4 0 0", "resume_later r4") * count, "cb_yield")
    calls = ("call r5 r8 h", "call r7 r8 h", "handle r6 r5", "handle r9 r7", "join r6 1", "join r9 1")
    ops = ("react", *calls, *("yield",) * 3, "join r6 0", "join r9 0", "drop r6", "drop r9", "cb_yield")
    return text(*scripts, *makes, *ops, *main("start a.f"))


def waiters_from_both_ends(count):
    """So many threads come to wait on one set, in turns from the one and the other end of the order of their places."""
    ends = [place for pair in zip(range(count - 1, -1, -1), range(count)) for place in pair][:count]
    makes = (*("thread_new r4 0 0",) * count, *(f"resume_later {place + 2}" for place in ends))
    ops = ("export f callback 0", "set_new r3", *makes, "cb_yield", "react", "cb_yield")
    return text("instance a", "thread 0", "wait r5 1", *ops, *main("start a.f"))


def pipeline():
    """16 callbacks call a callback of another instance, which calls a host, and start anew."""
    db = ("export get callback 1", "set r9 r0", "call r3 r8 disk", "set_new r4", "handle r5 r3", "join r5 r4", "cb_wait r4")
    db += ("react", "add r8 r9", "drop r1", "set_drop r4", "ret r8", "exit")
    call = ("call r3 r8 db.get r9", "handle r5 r3", "join r5 r4", "cb_wait r4", "exit")
    api = ("export do callback 1", "set r9 r0", "set_new r4", "cb_yield", "react", "skip_eq r0 1 5", *call)
    api += ("skip_eq r2 2 1", "cb_wait r4", "drop r1", "add r9 r8", "cb_yield")
    starts = [f"start api.do {k}" for k in range(16)]
    return text("host disk polls 3 value 100", "instance db", *db, "instance api", *api, *main(*starts))


def requests(count):
    """What `make` writes for so many requests, each through three instances and a host."""
    db = ("bp_inc", "set r9 r0", "call r3 r8 disk", "set_new r4", "handle r5 r3", "join r5 r4", "cb_wait r4")
    db += ("react", "add r8 r9", "drop r1", "set_drop r4", "bp_dec", "ret r8", "exit")
    api = ("set r9 r0", "call r3 r8 db.get r9", "handle r5 r3", "set_new r4", "join r5 r4", "cb_wait r4")
    api += ("react", "skip_eq r2 2 1", "cb_wait r4", "drop r1", "set_drop r4", "add r8 1", "ret r8", "exit")
    edge = ("instance edge", "export req stackful 1", "call_sync r3 api.do r0", "ret r3", "exit")
    exports = ("instance db", "export get callback 1", *db, "instance api", "export do callback 1", *api, *edge)
    numbers = range(1, count + 1)
    ops = ("main", *(f"start edge.req {k}" for k in numbers), *(f"finish {k} r0" for k in numbers), "answer r0", "end")
    return text("host disk polls 9 value 100", *exports, *ops)


def handles(count):
    """A set is made and dropped, again and again, beside so many that live."""
    ops = ("react", "set_new r4", "set_drop r4", "cb_yield")
    return text("instance a", "export f callback 0", *("set_new r3",) * count, "cb_yield", *ops, *main("start a.f"))


def depth(count):
    """Sync calls that go through so many instances, one inside the other."""
    lines = ["instance a0", "export s sync 1", "add r0 1"]
    for k in range(1, count):
        lines += [f"instance a{k}", "export s sync 1", f"call_sync r0 a{k - 1}.s r0", "add r0 1"]
    call = f"call_sync r4 a{count - 1}.s r4"
    return text(*lines, "instance b", *FOREVER, call, "cb_yield", *main("start b.f"))


def growing():
    """Name, a smaller and a larger text of each kind whose steps may cost more as it grows, and the labels that make them up."""
    yield "held calls, 16 and 256", held_calls(16), held_calls(256), 20_000
    yield "calls that backpressure holds, 16 and 256", barred_calls(16), barred_calls(256), 20_000
    yield "waiters, 100 and 2,000", waiters(100), waiters(2000), 20_000
    yield "waiters of whom two are woken, 100 and 2,000", woken_pairs(100), woken_pairs(2000), 20_000
    yield "waiters from both ends, 250 and 1,000", waiters_from_both_ends(250), waiters_from_both_ends(1000), 0
    yield "live handles, 64 and 4,000", handles(64), handles(4000), 20_000
    yield "spawned works, 16 and 256", store_works(16), store_works(256), 20_000
    yield "depth of a strand, 4 and 62", depth(4), depth(62), 20_000


def all_texts():
    """Name, words and text of each."""
    million = ["run", "1000000"]
    yield "two callbacks that yield", million, yields()
    yield "plain ops, one script", million, plain_ops()
    yield "plain ops, long numbers", million, wide_ops()
    yield "threads", million, threads()
    yield "256 works of hosts", million, store_works(256)
    yield "direct calls", million, direct_calls()
    yield "16 held calls", million, held_calls(16)
    yield "256 held calls", million, held_calls(256)
    yield "100 waiters", million, waiters(100)
    yield "2,000 waiters", million, waiters(2000)
    yield "a pipeline of calls", million, pipeline()
    yield "16 requests", million, requests(16)
    yield "256 requests", million, requests(256)
    yield "256 requests, summed up", ["big", "256", "1000000"], ""
