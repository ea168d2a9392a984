#!/usr/bin/env python3
"""Runs a text once for each growth of memory that the run asks for, and refuses that one.

    tools/refuse.py PROGRAM TEXT.. [--steps N] [--words WORDS] [--at K]

PROGRAM is the built program (`crates/vatbramble/out/vatbramble` after `./vatbramble build`), and each TEXT what it reads. Its words are
`run N`, with 1000 steps if no other number is given, or those that are given as one, as in --words 'serve 2 1000'. A growth is a call that
takes memory from the C library. A small library, which a C compiler builds first, comes before it and refuses the K-th: of each
run in its turn, or the one that --at names. A run of which a growth was refused has to end with status 1 and write nothing; or, if it
did without, it has to do and write what it does where nothing is refused. A line for each text says how often each came.

Statuses: 0 all is so; 1 something isn't, which is said; 2 wrong words; 4 a file can't be read or run, or there is no C compiler.
"""
import argparse
import os
import pathlib
import shutil
import struct
import subprocess
import sys
import tempfile

# What the program takes memory with. The count is in a page that is shared with this program, as a run may end in any way.
LIBRARY = r'''
#include <errno.h>
#include <fcntl.h>
#include <stddef.h>
#include <stdlib.h>
#include <sys/mman.h>

extern void *__libc_malloc(size_t);
extern void *__libc_calloc(size_t, size_t);
extern void *__libc_realloc(void *, size_t);
extern void *__libc_memalign(size_t, size_t);

static unsigned long *asked;
static unsigned long at;

__attribute__((constructor)) static void begin(void) {
    const char *file = getenv("REFUSE_COUNT"), *which = getenv("REFUSE_AT");
    int opened = file ? open(file, O_RDWR) : -1;
    void *page = opened < 0 ? MAP_FAILED : mmap(NULL, sizeof *asked, PROT_READ | PROT_WRITE, MAP_SHARED, opened, 0);
    at = which ? strtoul(which, NULL, 10) : 0;
    asked = page == MAP_FAILED ? NULL : page;
}

static int refused(void) {
    if (asked && ++*asked == at) {
        errno = ENOMEM;
        return 1;
    }
    return 0;
}

void *malloc(size_t size) { return refused() ? NULL : __libc_malloc(size); }
void *calloc(size_t many, size_t size) { return refused() ? NULL : __libc_calloc(many, size); }
void *realloc(void *old, size_t size) { return refused() ? NULL : __libc_realloc(old, size); }
void *memalign(size_t align, size_t size) { return refused() ? NULL : __libc_memalign(align, size); }
void *aligned_alloc(size_t align, size_t size) { return refused() ? NULL : __libc_memalign(align, size); }
int posix_memalign(void **new, size_t align, size_t size) {
    void *found = refused() ? NULL : __libc_memalign(align, size);
    if (found)
        *new = found;
    return found ? 0 : ENOMEM;
}
'''
NO_MEMORY = (1, b'')


class Failed(Exception):
    """Nothing can be tried, for this reason."""


def build(folder):
    """The library, built into the folder."""
    compiler = shutil.which('cc') or shutil.which('gcc') or shutil.which('clang')
    if compiler is None:
        raise Failed('there is no C compiler (cc, gcc or clang)')
    source, library = folder / 'refuse.c', folder / 'refuse.so'
    source.write_text(LIBRARY)
    made = subprocess.run([compiler, '-O1', '-shared', '-fPIC', '-o', library, source], stderr=subprocess.PIPE)
    if made.returncode:
        raise Failed(f'{compiler}: {made.stderr.decode(errors="replace").strip()}')
    return library


class Runs:
    """Runs of one program over one text."""

    def __init__(self, folder, library, program, words, text):
        self.words = [program, *words]
        self.library, self.count, self.text = str(library), folder / 'count', text

    def run(self, at):
        """Status, what was written, and how many growths were asked for, where that one is refused (0: none)."""
        self.count.write_bytes(struct.pack('L', 0))
        given = {**os.environ, 'LD_PRELOAD': self.library, 'REFUSE_COUNT': str(self.count), 'REFUSE_AT': str(at)}
        try:
            ran = subprocess.run(self.words, input=self.text, stdout=subprocess.PIPE, stderr=subprocess.PIPE, env=given)
        except OSError as error:
            raise Failed(f'{self.words[0]}: {error.strerror}')
        return (ran.returncode, ran.stdout), struct.unpack('L', self.count.read_bytes())[0]


def tried(name, runs, only):
    """Tries each growth of a text's run, or the one that is named, and returns what is wrong."""
    plain, many = runs.run(0)
    if not many:
        raise Failed(f'{name}: the run asked for no memory, or the library was not loaded')
    refused, without, wrong = 0, 0, []
    for at in [only] if only else range(1, many + 1):
        found, _ = runs.run(at)
        if found == NO_MEMORY:
            refused += 1
        elif found == plain:
            without += 1
        else:
            wrong.append(f'{name}: growth {at} of {many} refused: status {found[0]} and {len(found[1])} bytes; status {plain[0]} and '
                         f'{len(plain[1])} where nothing is refused')
    print(f'{name}: {many} growths; one refused: {refused} times status 1 and nothing written, {without} times as without')
    return wrong


def main(words):
    reader = argparse.ArgumentParser(description=__doc__.split('\n', 1)[0])
    reader.add_argument('program')
    reader.add_argument('texts', nargs='+', metavar='TEXT')
    reader.add_argument('--steps', type=int, default=1000)
    reader.add_argument('--words')
    reader.add_argument('--at', type=int, default=0, metavar='K')
    given = reader.parse_args(words)
    asked = given.words.split() if given.words else ['run', str(given.steps)]
    wrong = []
    try:
        with tempfile.TemporaryDirectory() as folder:
            folder = pathlib.Path(folder)
            library = build(folder)
            for name in given.texts:
                text = pathlib.Path(name).read_bytes()
                wrong += tried(name, Runs(folder, library, os.path.abspath(given.program), asked, text), given.at)
    except (Failed, OSError) as error:
        print(f'refuse.py: {error}', file=sys.stderr)
        return 4
    for line in wrong:
        print(line)
    return 1 if wrong else 0


if __name__ == '__main__':
    sys.exit(main(sys.argv[1:]))
