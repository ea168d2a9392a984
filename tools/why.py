#!/usr/bin/env python3
"""Says in one sentence why a text is no scenario.

    tools/why.py TEXT [--json]
    tools/why.py TEXT --report REPORT --line N

TEXT is a file, or `-` for standard input. The program answers `bad scenario line N` and no more. This reads the text by the same rules
(docs/SCENARIO.md), and prints the number of the first bad line, what is wrong there, and the line itself; with --json as an object with
`line`, `reason` and `text`, of which the first is null if the text is a scenario.

With --report it says what may stand in line N of a report of the text: the labels that may come there in a run whose lines before it
are these, or the outcome.

Statuses: 0 the text is a scenario, or what is expected was said; 2 wrong words; 3 it is none; 4 it can't be read; 5 a line before line N
is wrong; 6 it is too long.
"""
import argparse
import difflib
import json
import re
import sys

import example

BYTES = 1_048_576
NUMBER = re.compile(r'^(?:0|[1-9][0-9]*)$')
NAME = re.compile(r'^[a-z][a-z0-9_]{0,15}$')
REGISTER = re.compile(r'^r(?:[0-9]|1[0-5])$')
KINDS = ('sync', 'blocking', 'stackful', 'callback')
PARTS = ('host', 'instance', 'export', 'react', 'thread', 'bad', 'main')
MAIN_OPS = ('start', 'finish', 'spawn', 'abort', 'await', 'quiet', 'ready', 'answer')
ENDS_OF_CALLBACKS = ('cb_yield', 'cb_wait', 'code')
# What stands in the place of a number of an op, its name and its greatest value: by the op and the place of the operand.
NUMBERS = {('load', 1): ('a word of the instance', 15), ('store', 0): ('a word of the instance', 15),
           ('skip_eq', 2): ('a number of ops', 4096), ('thread_new', 1): ('a slot', 15)}


class Bad(Exception):
    """The line is bad, for this reason."""


def number(word, most, what):
    if word[:1] == '-' and word[1:].isdigit():
        how = ': subtract by adding, since numbers go on at 0 after 18446744073709551615' if most == 2 ** 64 - 1 else ''
        raise Bad(f'{what} is not negative{how}')
    if not NUMBER.match(word):
        zeros = word.isdigit() and word.isascii()
        raise Bad(f'{what} is a decimal number without leading zeros' + ('' if zeros else f', and {word[:40]!r} is no number'))
    if len(word) > 20 or int(word) > most:
        raise Bad(f'{what} is at most {most}, and {word[:40]} is more')
    return int(word)


def name(word):
    if not NAME.match(word):
        how = 'it has more than 16 characters' if len(word) > 16 else 'it begins with no letter of a to z' if not re.match('[a-z]', word) else \
            'it has a capital letter' if word.lower() != word else 'it has another character'
        raise Bad(f'a name is 1 to 16 of a to z, 0 to 9 and _, and begins with a letter; {word[:40]!r} is none, since {how}')
    return word


def register(word, last=15):
    if not REGISTER.match(word):
        raise Bad(f'a register is r0 to r15, and {word[:40]!r} is none')
    if int(word[1:]) > last:
        raise Bad(f'an event goes to three registers, so that the first is at most r{last}')


def operand(word):
    if not REGISTER.match(word):
        if word.startswith('r'):
            raise Bad(f'a register is r0 to r15, and {word[:40]!r} is none')
        number(word, 2 ** 64 - 1, 'an operand')


def near(word, known):
    """The end of a sentence that says which name looks like this one."""
    found = difflib.get_close_matches(word, known, 1, 0.7)
    return f'; the nearest name is `{found[0]}`' if found else ''


def form(op):
    """The op as its line is written."""
    letters = {'register': 'R', 'either': 'X', 'number': {'thread_new': 'S', 'skip_eq': 'N'}.get(op, 'W')}
    words = [letters[kind] for kind in example.OPS[op][2].split()]
    if words.count('X') == 2:
        words[words.index('X') + 1] = 'Y'
    return ' '.join([op, *words])


def words_are(words, form):
    if len(words) != len(form.split()):
        raise Bad(f'the line has the form `{form}`, which is {len(form.split())} words, and here are {len(words)}')


class Reader:
    """Reads line by line; `takes` is what may stand on the next line. `below` are the names that some line of the text gives."""

    def __init__(self, below):
        self.takes = self.scenario
        self.below = below
        self.hosts, self.instances, self.exports = [], [], {}
        self.ops, self.callback, self.react, self.after_start = 0, False, False, False
        self.starts, self.spawns, self.finished, self.main_ops, self.aborters = [], 0, set(), 0, 0

    def scenario(self, words):
        if words not in (['scenario', '1'], ['scenario', '2']):
            raise Bad('the first line is `scenario 1` or `scenario 2`')
        self.takes = self.handles

    def handles(self, words):
        self.limit(words, 'handles', 268_435_455, self.table)

    def table(self, words):
        self.limit(words, 'table', 1_000_000, self.idle)

    def limit(self, words, word, most, then):
        if words[0] != word:
            raise Bad(f'this line is `{word} N`')
        words_are(words, f'{word} N')
        number(words[1], most, f'the limit `{word}`')
        self.takes = then

    def idle(self, words):
        if words not in (['idle', 'trap'], ['idle', 'wait']):
            raise Bad('this line is `idle trap` or `idle wait`')
        self.takes = self.host

    def host(self, words):
        if words[0] != 'host':
            return self.part(words)
        if len(words) < 2:
            raise Bad('a host has a name')
        if name(words[1]) in self.hosts:
            raise Bad(f'names of hosts differ, and {words[1]} is given above')
        if words[2:] != ['never']:
            self.polls(words)
        if len(self.hosts) == 256:
            raise Bad('there are at most 256 hosts')
        self.hosts.append(words[1])

    def polls(self, words):
        if words[2:3] != ['polls'] or len(words) not in (5, 6) or words[4] != ('fail' if len(words) == 5 else 'value'):
            raise Bad('a host is `host NAME polls N value V`, `host NAME polls N fail` or `host NAME never`')
        number(words[3], 1_000_000, 'how often a host pends')
        if len(words) == 6:
            number(words[5], 2 ** 64 - 1, 'the value of a host')

    def part(self, words):
        """A line in an instance, or what may follow one."""
        if words[0] == 'instance':
            self.instance(words)
        elif words[0] == 'main':
            words_are(words, 'main')
            self.takes = self.main
        elif words[0] == 'host':
            raise Bad('hosts stand before the first instance, and here it is too late for one')
        elif not self.instances:
            raise Bad(f'here comes `host`, `instance NAME` or `main`{near(words[0], ("host", "instance", "main"))}')
        elif words[0] == 'export':
            self.export(words)
        elif words[0] in ('thread', 'bad'):
            self.slot(words)
        elif self.takes == self.script:
            self.line_of_script(words)
        else:
            raise Bad(f'no script is open here, and so the line begins with `export`, `thread`, `bad`, `instance` or `main`, and not with '
                      f'{words[0][:40]!r}{near(words[0], PARTS)}')

    script = part

    def instance(self, words):
        words_are(words, 'instance NAME')
        if name(words[1]) in [known for known, _ in self.instances]:
            raise Bad(f'names of instances differ, and {words[1]} is given above')
        if len(self.instances) == 64:
            raise Bad('there are at most 64 instances')
        self.instances.append((words[1], set()))
        self.takes = self.outside

    def outside(self, words):
        """In an instance, with no script open."""
        self.part(words)

    def export(self, words):
        words_are(words, 'export NAME KIND P')
        called = f'{self.instances[-1][0]}.{name(words[1])}'
        if called in self.exports:
            raise Bad(f'names of exports differ in an instance, and {words[1]} is given above')
        if words[2] not in KINDS:
            raise Bad(f'a kind is one of {", ".join(KINDS)}, and {words[2][:40]!r} is none{near(words[2], KINDS)}')
        if len(self.exports) == 256:
            raise Bad('there are at most 256 exports in all')
        self.exports[called] = (number(words[3], 16, 'how many parameters an export has'), len(self.instances) - 1)
        self.callback = self.after_start = words[2] == 'callback'
        self.open()

    def slot(self, words):
        words_are(words, f'{words[0]} S')
        slot = number(words[1], 15, 'a slot')
        if slot in self.instances[-1][1]:
            raise Bad(f'a slot is given once in an instance, and slot {slot} is given above')
        self.instances[-1][1].add(slot)
        self.callback = self.after_start = False
        if words[0] == 'thread':
            self.open()
        else:
            self.takes = self.outside

    def open(self):
        self.ops, self.takes = 0, self.script

    def line_of_script(self, words):
        if words == ['react'] and self.after_start:
            self.after_start = False
            self.open()
        elif words[0] == 'react':
            raise Bad('`react` is alone on its line, and comes once, after the start script of a callback export')
        elif self.ops == 4096:
            raise Bad('a script has at most 4096 ops')
        else:
            self.op(words)
            self.ops += 1

    def op(self, words):
        if words[0] in ('call', 'call_sync'):
            return self.call(words)
        if words[0] in MAIN_OPS:
            raise Bad(f'`{words[0]}` is an op of main, and no line `main` is above')
        if words[0] not in example.OPS:
            raise Bad(f'{words[0][:40]!r} begins no line that may be in a script{near(words[0], (*example.OPS, *PARTS, "call", "call_sync"))}')
        operands = example.OPS[words[0]][2].split()
        if len(words) - 1 != len(operands):
            many = f'{len(operands)} operand{"" if len(operands) == 1 else "s"}' if operands else 'no operand'
            raise Bad(f'`{form(words[0])}` has {many}, and here {"is" if len(words) == 2 else "are"} {len(words) - 1}')
        for place, (kind, word) in enumerate(zip(operands, words[1:])):
            if kind == 'register':
                register(word, 13 if words[0] in ('wait', 'poll') else 15)
            elif kind == 'number':
                what, most = NUMBERS[words[0], place]
                number(word, most, what)
            else:
                operand(word)
        if words[0] in ENDS_OF_CALLBACKS and not self.callback:
            raise Bad(f'`{words[0]}` ends the activation of a callback, and may only be in the scripts of callback exports')

    def call(self, words):
        registers = 2 if words[0] == 'call' else 1
        if len(words) < registers + 2:
            raise Bad(f'`{words[0]}` has {"R Q F" if registers == 2 else "R F"} and then the words of the call')
        for word in words[1:registers + 1]:
            register(word)
        self.arguments(words[registers + 1], words[registers + 2:], len(self.instances) - 1)

    def arguments(self, callee, words, before=None):
        """The callee is there, in an instance before this one where a guest calls, and has that many parameters."""
        if callee in self.hosts and before is not None:
            many = 0
        elif callee not in self.exports:
            raise Bad(self.unknown(callee, before is not None))
        else:
            many, instance = self.exports[callee]
            if before is not None and instance >= before:
                raise Bad(f'a guest calls earlier instances alone, and {callee} is of its own')
        if len(words) != many:
            raise Bad(f'{callee} has {many} parameter{"" if many == 1 else "s"}, and here {"is" if len(words) == 1 else "are"} {len(words)} '
                      f'word{"" if len(words) == 1 else "s"}')
        for word in words:
            operand(word)

    def unknown(self, callee, by_guest=False):
        """Why this name can't be called here."""
        if callee in self.hosts:
            return f'{callee!r} is a host, whose work main begins by `spawn {callee}`, and no export'
        if callee in self.below:
            return f'{callee!r} is given on line {self.below[callee]}, and may only be called below that line'
        whole = [known for known in self.exports if known.endswith(f'.{callee}')]
        if whole:
            return f'an export is named with its instance, as `{whole[0]}`, and {callee!r} has none'
        return f'no line above gives {callee[:40]!r}{near(callee, (*self.exports, *(self.hosts if by_guest else ()), *self.below))}'

    def main(self, words):
        if words[0] != 'answer' and self.main_ops == 4095:
            raise Bad('main has at most 4095 ops before `answer`')
        row = {'start': self.start, 'finish': self.finish, 'spawn': self.spawn, 'abort': self.of_spawn, 'await': self.of_spawn,
               'quiet': self.quiet, 'ready': self.ready, 'answer': self.answer}.get(words[0])
        if row is None:
            raise Bad(no_op_of_main(words[0]))
        row(words)
        self.main_ops += 1

    def ends(self):
        """What is missing where the text ends here."""
        if self.takes == self.main:
            return 'the text ends in main: its last op, `answer X`, is missing, and then `end`'
        if self.takes == self.aborter:
            return 'the text ends before its last line, which is `end`'
        for takes, line in ((self.scenario, '`scenario 1` or `scenario 2`'), (self.handles, '`handles N`'), (self.table, '`table N`'),
                            (self.idle, '`idle trap` or `idle wait`')):
            if self.takes == takes:
                return f'the text ends before its line {line}'
        return 'the text ends before main: `main`, its ops with `answer X`, and `end` are missing'

    def start(self, words):
        if len(words) < 2:
            raise Bad('`start` has the export that is called, and then its words')
        self.arguments(words[1], words[2:])
        if len(self.starts) == 256:
            raise Bad('main starts at most 256 calls')
        self.starts.append(words[1])

    def finish(self, words):
        words_are(words, 'finish K R')
        known = self.earlier(words[1], len(self.starts), 'start')
        if known in self.finished:
            raise Bad(f'a start is finished once, and start {known} is finished above')
        register(words[2])
        self.finished.add(known)

    def spawn(self, words):
        words_are(words, 'spawn H')
        if words[1] in self.exports:
            raise Bad(f'{words[1]!r} is an export, which main calls by `start {words[1]}`, and no host')
        if words[1] not in self.hosts:
            raise Bad(f'no host has the name {words[1][:40]!r}{near(words[1], self.hosts)}')
        if self.spawns == 256:
            raise Bad('main spawns at most 256 works')
        self.spawns += 1

    def of_spawn(self, words):
        words_are(words, f'{words[0]} K')
        self.earlier(words[1], self.spawns, 'spawn')

    def earlier(self, word, many, what):
        known = number(word, 2 ** 64 - 1, f'the number of a {what}')
        if not 1 <= known <= many:
            raise Bad(f'main has made {many} {what}{"" if many == 1 else "s"} so far, and {known} is none of them: they count from 1')
        return known

    def quiet(self, words):
        words_are(words, 'quiet')

    def ready(self, words):
        words_are(words, 'ready F')
        if words[1] not in self.exports:
            raise Bad(self.unknown(words[1]))

    def answer(self, words):
        words_are(words, 'answer X')
        operand(words[1])
        self.takes = self.aborter

    def aborter(self, words):
        if words == ['end']:
            self.takes = None
        elif words[0] != 'aborter':
            raise Bad('after `answer` come `aborter` lines and `end`')
        elif not 2 <= len(words) <= 17:
            raise Bad('an aborter has 1 to 16 numbers of spawns')
        elif self.aborters == 8:
            raise Bad('there are at most 8 aborters')
        else:
            for word in words[1:]:
                self.earlier(word, self.spawns, 'spawn')
            self.aborters += 1


def no_op_of_main(word):
    """Why no op of main begins with this word."""
    if word == 'end':
        return 'main ends with `answer X`, and that line is missing before `end`'
    if word in example.OPS or word in ('call', 'call_sync'):
        return f'`{word}` is an op of a guest, and main has ops of its own: {", ".join(MAIN_OPS)}'
    if word in PARTS:
        return f'a line `{word}` comes before `main`'
    return f'{word[:40]!r} is no op of main{near(word, (*MAIN_OPS, "end"))}'


def as_words(line, first):
    """The words of a line, or why it isn't made of words with one space between them."""
    if line.endswith(b'\r'):
        raise Bad('the line ends with a carriage return: a line feed alone ends a line, and the text has the line ends of another system')
    if b'\t' in line:
        raise Bad('the line has a tab: words have one space between them')
    if first and line.startswith((b'\xef\xbb\xbf', b'\xff\xfe', b'\xfe\xff')):
        raise Bad('the text begins with a byte order mark: it is ASCII alone')
    if not line.isascii():
        raise Bad('the line has a byte that is not ASCII')
    words = line.decode('ascii').split(' ')
    if re.search(r'(^|\s)(#|//|;|--)', ' '.join(words)):
        raise Bad('a text has no comments')
    if '' in words:
        raise Bad('no line is empty' if not line.strip(b' ') else 'the line begins with a space' if words[0] == '' else
                  'the line ends with a space' if words[-1] == '' else 'a line is words with one space between them')
    return words


def names_below(lines):
    """The names of exports and hosts, each with the first line that gives it, whatever else is wrong."""
    names, instance = {}, ''
    for count, line in enumerate(lines, 1):
        words = line.decode('latin-1').split()
        if words[:1] == ['instance'] and len(words) > 1:
            instance = words[1]
        elif words[:1] == ['export'] and len(words) > 1:
            names.setdefault(f'{instance}.{words[1]}', count)
        elif words[:1] == ['host'] and len(words) > 1:
            names.setdefault(words[1], count)
    return names


def why(text):
    """The first bad line and its reason, or None for a scenario; the text is bytes."""
    lines = text.split(b'\n')
    if lines[-1] == b'':
        lines.pop()
    reader = Reader(names_below(lines))
    for count, line in enumerate(lines, 1):
        try:
            if reader.takes is None:
                raise Bad('nothing follows `end`')
            reader.takes(as_words(line, count == 1))
        except Bad as bad:
            return count, str(bad)
    if reader.takes is not None:
        return len(lines) + 1, reader.ends()
    return None


def content(name):
    """The bytes of a file, or of standard input, and no more than it takes to see that they are too many."""
    if name == '-':
        return sys.stdin.buffer.read(BYTES + 1)
    with open(name, 'rb') as file:
        return file.read(BYTES + 1)


def say(bad, text, as_json):
    """Prints what is wrong."""
    lines = text.split(b'\n')
    line = lines[bad[0] - 1].decode('latin-1') if bad and bad[0] <= len(lines) else ''
    if as_json:
        print(json.dumps({'line': bad[0] if bad else None, 'reason': bad[1] if bad else None, 'text': line}))
    elif bad is None:
        print('the text is a scenario')
    else:
        print(f'line {bad[0]}: {bad[1]}')
        if line:
            print(f'  {ascii(line)[1:-1][:120]}')


def say_expected(said):
    """Prints what may stand in a line of a report."""
    import lawful  # here, as it reads scenarios by this module
    try:
        labels, outcome = lawful.expected(said.text, said.report, said.line)
    except lawful.scenario.Unreadable as error:
        print(f'why: {error}', file=sys.stderr)
        return error.status
    except lawful.Misfit as misfit:
        print(f'a line before line {said.line} is wrong: {misfit}')
        return 5
    known = [*labels, *([outcome] if outcome else [])]
    print(f'line {said.line}: expected ' + ('nothing, as the report ends before it' if not known else f'`{known[0]}`' if len(known) == 1
                                            else 'one of ' + ', '.join(f'`{one}`' for one in known)))
    return 0


def main(given=None):
    """The status of a call with these words, or with those of the command line."""
    parser = argparse.ArgumentParser(description=__doc__, formatter_class=argparse.RawDescriptionHelpFormatter)
    parser.add_argument('text')
    parser.add_argument('--json', action='store_true')
    parser.add_argument('--report')
    parser.add_argument('--line', type=int, metavar='N')
    said = parser.parse_args(given)
    if (said.report is None) != (said.line is None) or said.line is not None and said.line < 1:
        parser.error('--report and --line N, from 1 on, go together')
    if said.report is not None:
        return say_expected(said)
    try:
        text = content(said.text)
    except OSError as error:
        print(f"why: {said.text} can't be read: {error.strerror}", file=sys.stderr)
        return 4
    if len(text) > BYTES:
        print(f'the text has more than {BYTES} bytes')
        return 6
    bad = why(text)
    say(bad, text, said.json)
    return 3 if bad else 0


if __name__ == '__main__':
    sys.exit(main())
