#!/usr/bin/env python3
"""Reads the choices off stored reports. Run it as it is."""
import pathlib
import subprocess
import sys
import tempfile
import unittest

import choices
import lawful
import timeline

HERE = pathlib.Path(__file__).resolve().parent
EXAMPLES = HERE.parent / 'examples'


def changed(lines):
    """A report of these lines, in a file."""
    file = tempfile.NamedTemporaryFile('w', suffix='.report', delete=False, encoding='ascii')
    with file:
        file.write('\n'.join(lines) + '\n')
    return file.name


class Choices(unittest.TestCase):
    """What is read off reports."""

    text, report = EXAMPLES / 'chosen_waiter.txt', EXAMPLES / 'chosen_waiter.report'

    def test_names_the_waiter_that_was_woken(self):
        self.assertEqual(choices.choices(self.text, self.report), ['choose wake 2'])

    def other_run(self):
        """The report of the run in which the other thread is woken, in a file."""
        lines = self.report.read_text(encoding='ascii').splitlines()
        at = next(place for place, line in enumerate(lines) if line.endswith(' wakes 2'))
        later = [line.replace('thread 2', 'thread 3') for line in lines[at + 1:]]
        return changed([*lines[:at], lines[at].replace('wakes 2', 'wakes 3'), *later])

    def test_names_another_waiter(self):
        self.assertEqual(choices.choices(self.text, self.other_run()), ['choose wake 3'])

    def test_the_picture_of_the_other_run_is_todays(self):
        drawn, outcome, _ = timeline.drawn_of(self.other_run(), str(self.text))
        self.assertEqual((HERE.parent / 'docs' / 'chosen_waiter.svg').read_text(encoding='utf-8'), timeline.picture(drawn, outcome))

    def test_refuses_a_report_of_another_text(self):
        with self.assertRaises(choices.scenario.Unreadable) as caught:
            choices.choices(EXAMPLES / 'one_call.txt', self.report)
        self.assertEqual(caught.exception.status, 5)

    def test_finds_none_where_nothing_was_free(self):
        self.assertEqual(choices.choices(EXAMPLES / 'one_call.txt', EXAMPLES / 'one_call.report'), [])

    def test_says_what_may_come(self):
        self.assertEqual(lawful.expected(self.text, self.report, 25), (['thread 1 join wakes 2', 'thread 1 join wakes 3'], 'out of steps'))
        self.assertEqual(lawful.expected(self.text, self.report, 33), ([], 'deadlock 15'))

    def test_puts_the_text_first(self):
        run = subprocess.run([sys.executable, HERE / 'choices.py', self.report, '--text', self.text, '--whole'], capture_output=True, text=True,
                             check=True)
        self.assertEqual(run.stdout, self.text.read_text(encoding='ascii') + 'choose wake 2\n')


if __name__ == '__main__':
    unittest.main()
