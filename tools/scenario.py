"""A scenario text as a tree, each op with the number of its line: what the tools read that follow a run.

The text has to be a scenario: `read` asks why.py first, and says with it which line is bad.
"""
import dataclasses

import why

ASYNC_KINDS = ('stackful', 'callback')
KEYWORDS = ('host', 'instance', 'export', 'react', 'thread', 'bad', 'main')


class Unreadable(Exception):
    """A file that can't be used, with what is wrong and the status that a tool ends with."""

    def __init__(self, status, message):
        super().__init__(message)
        self.status = status


@dataclasses.dataclass
class Op:
    """An op as it stands in the text."""
    line: int
    words: list

    def __str__(self):
        return ' '.join(self.words)


@dataclasses.dataclass
class Host:
    """A host function: how often it pends (None for one that never ends), and its value (None for one that fails)."""
    name: str
    polls: int | None
    value: int | None


@dataclasses.dataclass
class Export:
    """An export with its scripts."""
    name: str
    instance: int
    kind: str
    start: list = dataclasses.field(default_factory=list)
    react: list = dataclasses.field(default_factory=list)


class Scenario:
    """The parts of a text, by their names and places."""

    def __init__(self, lines):
        self.version = int(lines[0].split()[1])
        self.handles, self.table, self.idle = int(lines[1].split()[1]), int(lines[2].split()[1]), lines[3].split()[1]
        self.hosts, self.instances, self.exports = {}, [], {}
        self.slots, self.main = {}, []
        self.script, self.export = None, None
        for count, line in enumerate(lines[4:], 5):
            words = line.split()
            if words[0] in KEYWORDS:
                self.part(words)
            elif words[0] not in ('aborter', 'end'):
                self.script.append(Op(count, words))

    def part(self, words):
        """A line that begins something."""
        if words[0] == 'host':
            polls = int(words[3]) if words[2] == 'polls' else None
            self.hosts[words[1]] = Host(words[1], polls, int(words[5]) if 'value' in words else None)
        elif words[0] == 'instance':
            self.instances.append(words[1])
        elif words[0] == 'export':
            self.export = Export(f'{self.instances[-1]}.{words[1]}', len(self.instances) - 1, words[2])
            self.exports[self.export.name] = self.export
            self.script = self.export.start
        elif words[0] == 'react':
            self.script = self.export.react
        elif words[0] == 'thread':
            self.script = self.slots[len(self.instances) - 1, int(words[1])] = []
        elif words[0] == 'main':
            self.script = self.main


def content(path):
    """What the file has, as ASCII lines."""
    try:
        with open(path, 'rb') as file:
            return file.read()
    except OSError as error:
        raise Unreadable(4, f"{path} can't be read: {error.strerror}") from error


def read(path):
    """The scenario of a file."""
    text = content(path)
    if len(text) > why.BYTES:
        raise Unreadable(6, f'{path} has {len(text)} bytes, and a scenario may have {why.BYTES}')
    if bad := why.why(text):
        raise Unreadable(3, f'{path} is no scenario: line {bad[0]}: {bad[1]}')
    return Scenario(text.decode('ascii').splitlines())


def report(path):
    """The labels and the outcome of a file that `run` printed."""
    text = content(path)
    try:
        lines = text.decode('ascii').split('\n')
    except UnicodeDecodeError as error:
        raise Unreadable(2, f'{path} is no report: it has a byte that is not ASCII') from error
    if lines[-1] == '':
        lines.pop()
    if not lines:
        raise Unreadable(2, f'{path} is no report: it is empty')
    return lines
