#!/usr/bin/env python3
"""Compares what example.py writes with the examples that stand in the crate, blanks aside. Run it as it is."""
import contextlib
import io
import os
import pathlib
import re
import unittest

import example

TOP = os.path.dirname(os.path.dirname(os.path.abspath(__file__)))
CRATE = os.path.join(TOP, 'crates', 'laws_examples')
ONE_CALL = """main start 1 thread 1
main pends
take high thread 1
thread 1 ret 7
thread 1 exit
main finish 1 = 7
main answer 7
done 7
"""

HELD = """scenario 1
handles 9
table 90
idle trap
instance a
export shut callback 0
bp_inc
ret 0
export f callback 0
ret 1
export open sync 0
bp_dec
main
start a.shut
finish 1 r0
start a.f
start a.f
start a.open
finish 3 r1
finish 2 r1
answer r1
end
"""
RELEASED = """main start 1 thread 1
main pends
take high thread 1
thread 1 bp_inc
thread 1 ret 0
thread 1 exit
main finish 1 = 0
main start 2 thread 2
main start 3 thread 3
main start 4 thread 4
main pends
take high thread 2 held
main pends
take high thread 3 held
main pends
take high thread 4
thread 4 bp_dec
thread 4 exit
main pends
take high thread 3
thread 3 ret 1
thread 3 exit
main finish 3 = 1
main pends
take high thread 2
thread 2 ret 1
thread 2 exit
main finish 2 = 1
main answer 1
done 1
"""


def content(*path):
    """What the file under the top has."""
    with open(os.path.join(TOP, *path), encoding='utf-8') as file:
        return file.read()


def solid(text):
    """The text without blanks, and without the mark behind a record's last field: `rt fmt` sets both."""
    return re.sub(r';\}', '}', re.sub(r'\s', '', text))


class Pieces(unittest.TestCase):
    def stands(self, name, steps, text, report, file, exchanges=()):
        """The three pieces stand in the files of the crate."""
        definitions, proof, function = example.pieces(name, steps, text, report, file, exchanges)
        self.assertIn(solid(definitions), solid(content(CRATE, 'specs', f'{file}.antt')))
        self.assertIn(solid(proof), solid(content(CRATE, 'proofs', f'{file}Shown.antt')))
        self.assertIn(solid(function), solid(content(CRATE, 'src', f'{file.lower()}.rt')))

    def test_one_call(self):
        self.stands('callback_returns_its_parameter', 7, content('examples', 'one_call.txt'), ONE_CALL, 'Calls')

    def test_the_order_of_a_release(self):
        self.stands('held_starts_are_released_in_either_order', 300, HELD, RELEASED, 'Calls', ['16:0-1'])
        self.assertEqual(solid(example.exchanges_term(['106:2-3,1-2'])), '((106,(2,3)∷(1,2)∷[])∷[])')

    def test_every_stored_run_can_be_written(self):
        for text in pathlib.Path(TOP, 'scenarios').glob('*.txt'):
            definitions, _, _ = example.pieces(text.stem, 1000, text.read_text(), text.with_suffix('.report').read_text())
            self.assertIn(f'abbrev pub {text.stem} : ScenarioDef', definitions)

    def test_labels_that_wake_or_poll(self):
        self.assertEqual(example.label('thread 4 ret 7 wakes 3'), 'label.RetWakes 4 7 3')
        self.assertEqual(example.label('thread 2 call 17 future 5'), 'label.Call (call_label.CallPolls 17 2 5)')
        self.assertEqual(example.label('thread 2 pauses future 5'), 'label.Call (call_label.PausesPolls 2 5)')
        self.assertEqual(example.label('take high thread 3 event 6 0 0 wakes 2'),
                         'label.Take (take.EventWakes mark.High own.Cancelled 3 2)')

    def test_bad_input(self):
        stored = os.path.join(TOP, 'scenarios', 'thread_end_in_a_sync_export_traps')
        text, report = f'{stored}.txt', f'{stored}.report'
        other = os.path.join(TOP, 'examples', 'one_call.txt')
        for words, status in (((text, report), 0), ((other, report), 5), ((text, other), 2), ((report, report), 3), (('/no/file', report), 4),
                              ((text, report, '--exchanges', '3:x'), 2), ((text,), 2)):
            with contextlib.redirect_stdout(io.StringIO()), contextlib.redirect_stderr(io.StringIO()):
                try:
                    found = example.main(['name', '300', *words])
                except SystemExit as end:
                    found = end.code
            self.assertEqual(found, status, words)


if __name__ == '__main__':
    unittest.main()
