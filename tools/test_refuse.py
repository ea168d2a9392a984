#!/usr/bin/env python3
"""Tries refuse.py on small programs in C, which behave as a program should where memory is refused, and as it should not. Run it as it is."""
import contextlib
import io
import pathlib
import shutil
import subprocess
import tempfile
import unittest

import refuse

COMPILER = shutil.which('cc') or shutil.which('gcc') or shutil.which('clang')
# Takes memory three times, of which it does without the last, and writes what it read. Its word `make` has it take memory once more.
SOURCE = r'''
#include <stdlib.h>
#include <string.h>
#include <unistd.h>
int main(int many_words, char **word) {
    char *volatile first = malloc(16);
#ifdef FORGETS
    if (!first) return 0;
#endif
    if (!first) return 1;
#ifdef HASTY
    write(1, "early ", 6);
#endif
    char *volatile second = realloc(first, 4096);
    if (!second) return 1;
    free(malloc(16));
    if (!strcmp(word[1], "make")) free(malloc(8));
    ssize_t many = read(0, second, 4096);
    return write(1, second, many) == many ? 0 : 5;
}
'''


@unittest.skipIf(COMPILER is None, 'there is no C compiler')
class Refuse(unittest.TestCase):
    def setUp(self):
        self.folder = tempfile.TemporaryDirectory()
        self.addCleanup(self.folder.cleanup)
        self.text = pathlib.Path(self.folder.name) / 'text'
        self.text.write_text('scenario 1\n')

    def program(self, *flags):
        source, program = (pathlib.Path(self.folder.name) / name for name in ('it.c', 'it'))
        source.write_text(SOURCE)
        # (the compiler would leave out a malloc that is freed at once)
        subprocess.run([COMPILER, '-O0', '-w', *flags, '-o', program, source], check=True)
        return str(program)

    def call(self, *words):
        out, error = io.StringIO(), io.StringIO()
        with contextlib.redirect_stdout(out), contextlib.redirect_stderr(error):
            try:
                return refuse.main(list(words)), out.getvalue(), error.getvalue()
            except SystemExit as end:
                return end.code, out.getvalue(), error.getvalue()

    def test_a_program_that_keeps_its_word(self):
        status, said, _ = self.call(self.program(), str(self.text))
        self.assertEqual(status, 0)
        self.assertIn('3 growths; one refused: 2 times status 1 and nothing written, 1 times as without', said)

    def test_one_growth_alone(self):
        self.assertIn('1 times status 1 and nothing written, 0 times', self.call(self.program(), str(self.text), '--at', '2')[1])

    def test_other_words(self):
        status, said, _ = self.call(self.program(), str(self.text), '--words', 'make 12')
        self.assertEqual(status, 0)
        self.assertIn('4 growths; one refused: 2 times status 1 and nothing written, 2 times as without', said)

    def test_a_status_that_hides_the_lack_of_memory(self):
        status, said, _ = self.call(self.program('-DFORGETS'), str(self.text))
        self.assertEqual(status, 1)
        self.assertIn('growth 1 of 3 refused: status 0 and 0 bytes; status 0 and 11 where nothing is refused', said)

    def test_something_written_before_it_was_out_of_memory(self):
        status, said, _ = self.call(self.program('-DHASTY'), str(self.text))
        self.assertEqual(status, 1)
        self.assertIn('growth 2 of 3 refused: status 1 and 6 bytes', said)

    def test_bad_input(self):
        self.assertEqual(self.call()[0], 2)
        self.assertEqual(self.call(self.program(), '/no/file')[0], 4)
        status, _, error = self.call('/no/program', str(self.text))
        self.assertEqual((status, error), (4, 'refuse.py: /no/program: No such file or directory\n'))


if __name__ == '__main__':
    unittest.main()
