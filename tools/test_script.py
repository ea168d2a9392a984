#!/usr/bin/env python3
"""Tests of the script `vatbramble`, over a small repository and a toolchain that is a stand-in: nothing is proved or
compiled. Run it as it is. With the word `toolchain` it tests the repository's own script with the real one, unproved,
which takes some minutes."""
import os
import pathlib
import shutil
import signal
import subprocess
import sys
import tempfile
import time
import unittest

TOP = os.path.dirname(os.path.dirname(os.path.abspath(__file__)))
SCRIPT = os.path.join(TOP, 'vatbramble')
PLAIN_PATH = '/usr/bin:/bin'
LIMIT = 60

# The stand-in keeps what it was called with, and does what the files of its folder say.
TOOLCHAIN = r'''#!/bin/sh
here=$(dirname "$0")
echo "$PWD: $*" >>"$here/calls"
case $1 in
try)
  cat >"$here/input"
  while [ $# -gt 0 ]; do
    [ "$1" != --cases ] || (cd "$2" && for it in *; do echo "$it $(wc -c <"$it")"; done >"$here/seen")
    shift
  done
  cat "$here/answer"
  cat "$here/said" >&2
  exit "$(cat "$here/status")" ;;
version) echo kit ;;
run)
  echo begun >>"$here/begun"
  while [ -e "$here/wait" ]; do sleep 0.05; done
  if [ -e "$here/refuse" ]; then echo "refused: a goal is open" >&2; exit 1; fi
  mkdir -p out && cp "$here/program" out/vatbramble || exit 1
  [ ! -e "$here/change" ] || echo "changed" >>src/main.rt
  ./out/vatbramble run 7 ;;
esac
'''
PROGRAM = '''#!/bin/sh
echo "proved: $*"
cat
[ "$1" = run ] || exit 2
'''
USAGE = 'usage: run STEPS, make NUMBER, big NUMBER STEPS, beside STEPS\n'
SERVE_USAGE = 'usage: serve LIMIT STEPS\n'
NOT_PROVED = 'NOT from the proved program'


def write(path, text, executable=False):
    os.makedirs(os.path.dirname(path), exist_ok=True)
    with open(path, 'w', encoding='utf-8') as file:
        file.write(text)
    if executable:
        os.chmod(path, 0o755)


class Script(unittest.TestCase):
    def setUp(self):
        self.room = tempfile.mkdtemp(prefix='test script ')
        self.addCleanup(shutil.rmtree, self.room, True)
        self.top = os.path.join(self.room, 'a copy')
        self.kit = os.path.join(self.room, 'kit')
        write(f'{self.top}/crates.txt', '# crates\nlow:\nother: low\nvatbramble: low futures\n')
        for crate in ('low', 'other', 'vatbramble'):
            write(f'{self.top}/crates/{crate}/src/lib.rt', crate)
            write(f'{self.top}/crates/{crate}/proofs/Lemmas.antt', crate)
        write(f'{self.top}/crates/vatbramble/src/main.rt', 'main')
        write(f'{self.top}/crates/vatbramble/stdin', 'stored\n')
        write(f'{self.top}/crates/vatbramble/stdout', 'proved: run 7\nstored\n')
        shutil.copy(SCRIPT, f'{self.top}/vatbramble')
        write(f'{self.kit}/rt', TOOLCHAIN, True)
        write(f'{self.kit}/program', PROGRAM, True)
        self.answers('tried\n', 0)

    def answers(self, answer, status, said=None):
        """What the stand-in answers to a try."""
        write(f'{self.kit}/answer', answer)
        write(f'{self.kit}/status', str(status))
        write(f'{self.kit}/said', said or f'checked: ended status={status}\nrun=ended status={status} runners=1 proved=no\n')

    def command(self, words, script=None):
        return [script or f'{self.top}/vatbramble', *words]

    def environment(self, path=None):
        return {'PATH': path or f'{self.kit}:{PLAIN_PATH}', 'LANG': 'C.UTF-8', 'TMPDIR': self.room}

    def call(self, *words, text='', script=None, path=None, **how):
        """Status, standard output and standard error of a call."""
        how = {'input': text, 'cwd': self.room, **how}
        ran = subprocess.run(self.command(words, script), env=self.environment(path), text=True, timeout=LIMIT,
                             stdout=how.pop('stdout', subprocess.PIPE), stderr=subprocess.PIPE, **how)
        return ran.returncode, ran.stdout, ran.stderr

    def has(self, name):
        return os.path.exists(f'{self.kit}/{name}')

    def calls(self):
        """The calls of the stand-in."""
        if not self.has('calls'):
            return []
        with open(f'{self.kit}/calls', encoding='utf-8') as file:
            return file.read().splitlines()

    def seen(self):
        """The cases that the stand-in was given, with their lengths."""
        with open(f'{self.kit}/seen', encoding='utf-8') as file:
            return file.read().splitlines()

    def given(self):
        with open(f'{self.kit}/input', encoding='utf-8') as file:
            return file.read()

    def builds(self):
        self.assertEqual(self.call('build')[0], 0)

    def is_tried(self, ran, status=0, answer='tried\n'):
        self.assertEqual(ran[:2], (status, answer))
        self.assertIn(NOT_PROVED, ran[2])
        self.assertIn("'./vatbramble build' proves and builds it", ran[2])

    def is_refused(self, ran, status, why):
        self.assertEqual(ran[:2], (status, ''))
        self.assertIn(why, ran[2])


class Unproved(Script):
    def test_where_nothing_was_built_the_toolchain_tries(self):
        self.is_tried(self.call('run', '7', text='a text\n'))
        self.assertEqual(self.calls(), [f'{self.top}/crates/vatbramble: try --seconds 60 -- run 7'])
        self.assertEqual(self.given(), 'a text\n')
        self.assertEqual([it for it in os.listdir(self.room) if it.startswith('tmp.')], [])

    def test_the_statuses_of_the_program_come_through(self):
        for status in range(7):
            self.answers(f'answer {status}\n', status)
            self.is_tried(self.call('run', '7'), status, f'answer {status}\n')

    def test_a_failure_of_the_toolchain_is_no_status_of_the_program(self):
        for status in (1, 2, 3, 4, 5, 6):
            self.answers('half an answer', status, f'error: it broke\nrun=none proved=no\n')
            self.is_refused(self.call('run', '7'), 71, 'it broke')

    def test_without_a_toolchain(self):
        if shutil.which('rt', path=PLAIN_PATH):
            self.skipTest('a toolchain stands among the plain commands')
        self.is_refused(self.call('run', '7', path=PLAIN_PATH), 70, 'not on PATH')
        self.is_refused(self.call('build', path=PLAIN_PATH), 70, 'not on PATH')

    def test_too_much_and_too_long(self):
        said = 'checked: no-answer: the program wrote more than 1048576 bytes to standard output\nrun=no-answer proved=no\n'
        self.answers('', 6, said)
        self.is_refused(self.call('run', '7'), 72, 'at most 1 MiB')
        self.answers('', 6, 'checked: no-answer: the program did not end within the time limit\nrun=no-answer proved=no\n')
        self.is_refused(self.call('run', '7'), 73, 'at most 60 seconds')

    def test_of_a_long_text_only_what_the_program_takes_is_read(self):
        self.is_tried(self.call('run', '7', text='x' * 3_000_000))
        self.assertEqual(len(self.given()), 1_048_577)
        self.is_tried(self.call('serve', '8', '7', text='x' * 5_000_000))
        self.assertEqual(len(self.given()), 4_194_305)

    def test_many_texts_from_one_compilation(self):
        for name, text in (('one', 'a\n'), ('two words', 'b\n'), ('three', 'x' * 2_000_000)):
            write(f'{self.room}/texts/{name}.txt', text)
        write(f'{self.room}/texts/notes', 'no text\n')
        self.answers('== one.txt\nmain pends\nidle\n== three.txt\ntext too long\n== two words.txt\n', 0,
                     'case=one.txt run=ended status=0 runners=1 proved=no\ncase=three.txt run=ended status=6 runners=1 proved=no\n'
                     'checked: no-answer: the program did not end within the time limit\ncase=two words.txt run=no-answer proved=no\n')
        ran = self.call('runs', '9', 'texts', 'reports')
        self.assertEqual(ran[:2], (71, 'one: status 0, idle\nthree: status 6, text too long\ntwo words: status 71, \n'))
        self.assertIn(NOT_PROVED, ran[2])
        self.assertEqual(sorted(os.listdir(f'{self.room}/reports')), ['one.report', 'three.report'])
        self.assertEqual(len(self.calls()), 1)
        self.assertEqual(self.seen(), ['one.txt 2', 'three.txt 1048577', 'two words.txt 2'])

    def test_many_texts_where_the_toolchain_fails(self):
        write(f'{self.room}/texts/one.txt', 'a\n')
        self.answers('', 2, 'error: it broke\nrun=none proved=no\n')
        self.is_refused(self.call('runs', '9', 'texts', 'reports'), 71, 'it broke')


class Words(Script):
    def test_wrong_words_read_nothing_and_compile_nothing(self):
        def check(_):
            for words in ((), ('run',), ('run', '0'), ('run', '07'), ('run', '1000001'), ('make', 'x'), ('make', '257'), ('make', '1', '1'), ('big', '1'),
                          ('big', '1', '0'), ('beside',), ('beside', '0'), ('-x',), ('run', '7', SCRIPT, '8'), ('runs', '7', 'texts'), ('run', '9' * 30)):
                reader, writer = os.pipe()
                try:
                    ran = self.call(*words, input=None, stdin=reader)
                finally:
                    os.close(reader)
                    os.close(writer)
                self.assertEqual(ran[:2], (2, USAGE))
            for words in (('serve',), ('serve', '1'), ('serve', '0', '7'), ('serve', '1025', '7'), ('serve', '1', '0'), ('serve', '1', '7', SCRIPT, '8')):
                self.assertEqual(self.call(*words)[:2], (2, SERVE_USAGE))
        calls = len(self.calls())
        check(None)
        self.assertEqual(len(self.calls()), calls)
        self.builds()
        check(None)

    def test_the_usage_lines_are_the_programs(self):
        for crate, usage in (('task_run', USAGE), ('serve_main', SERVE_USAGE)):
            with open(f'{TOP}/crates/{crate}/src/program.rt', encoding='utf-8') as file:
                self.assertIn(f'b"{usage[:-1]}\\n"', file.read())

    def test_help_and_version(self):
        for word in ('help', '--help', '-h'):
            ran = self.call(word)
            self.assertEqual((ran[0], ran[2]), (0, ''))
            self.assertIn('./vatbramble runs STEPS FOLDER OUT', ran[1])
        self.assertIn('program: not proved', self.call('version')[1])
        self.assertIn('commit: unknown', self.call('version')[1])
        self.assertEqual(self.calls()[-1].split(': ')[1], 'version')
        self.builds()
        self.assertIn('program: proved', self.call('--version')[1])

    def test_many_texts_of_the_proved_program(self):
        self.builds()
        for name in ('one', 'two words'):
            write(f'{self.room}/texts/{name}.txt', f'{name}\n')
        ran = self.call('runs', '9', 'texts', 'some/reports')
        self.assertEqual(ran, (0, 'one: status 0, one\ntwo words: status 0, two words\n', ''))
        with open(f'{self.room}/some/reports/two words.report', encoding='utf-8') as file:
            self.assertEqual(file.read(), 'proved: run 9\ntwo words\n')
        self.is_refused(self.call('runs', '9', 'no folder', 'reports'), 4, 'has no file')
        self.is_refused(self.call('runs', '9', 'texts', '/dev/null/x'), 75, "can't be written")

    def both(self, check):
        """Checks without a proved program, and with one."""
        check(f'tried\n')
        self.builds()
        check(None)

    def test_a_file_in_place_of_standard_input(self):
        write(f'{self.room}/some folder/a text', 'of a file\n')

        def check(tried):
            ran = self.call('run', '7', 'a text', cwd=f'{self.room}/some folder', script='../a copy/vatbramble')
            self.assertEqual(ran[:2], (0, tried or 'proved: run 7\nof a file\n'))
            self.assertEqual(tried is None or self.given(), tried is None or 'of a file\n')
            ran = self.call('serve', '8', '7', 'a text', cwd=f'{self.room}/some folder', script='../a copy/vatbramble')
            self.assertEqual(ran[:2], (0 if tried else 2, tried or 'proved: serve 8 7\nof a file\n'))
        self.both(check)

    def test_beside_takes_what_run_takes(self):
        write(f'{self.room}/some folder/a text', 'of a file\n')

        def check(tried):
            ran = self.call('beside', '7', 'a text', cwd=f'{self.room}/some folder', script='../a copy/vatbramble')
            self.assertEqual(ran[1], tried or 'proved: beside 7\nof a file\n')
            self.assertEqual(tried is None or self.given(), tried is None or 'of a file\n')
        self.both(check)

    def test_a_file_that_cannot_be_read(self):
        def check(tried):
            self.is_refused(self.call('run', '7', 'no file'), 4, "no file can't be read")
        self.both(check)

    def test_an_input_that_fails(self):
        self.is_refused(self.call('run', '7', self.room), 4, 'the input failed')
        self.is_refused(self.call('run', '7', input=None, stdin=os.open(self.room, os.O_RDONLY)), 4, 'the input failed')

    def test_an_output_that_fails(self):
        with open('/dev/full', 'w', encoding='utf-8') as full:
            self.assertEqual(self.call('run', '7', stdout=full)[0], 5)

    def test_through_a_link(self):
        os.symlink(f'{self.top}/vatbramble', f'{self.room}/linked')
        self.is_tried(self.call('run', '7', script=f'{self.room}/linked'))


class Built(Script):
    def is_proved(self):
        ran = self.call('run', '9', text='a text\n')
        self.assertEqual(ran, (0, 'proved: run 9\na text\n', ''))

    def test_the_proved_program_is_run_with_its_status(self):
        self.builds()
        self.is_proved()
        self.assertEqual(self.call('make', '2'), (2, 'proved: make 2\n', ''))
        self.assertEqual(len(self.calls()), 1)

    def test_a_second_build_has_nothing_to_do(self):
        self.builds()
        self.builds()
        self.assertEqual(len(self.calls()), 1)

    def test_a_program_of_other_sources_is_not_run(self):
        for path in ('crates/vatbramble/src/main.rt', 'crates/low/proofs/Lemmas.antt'):
            self.builds()
            self.is_proved()
            write(f'{self.top}/{path}', 'other')
            ran = self.call('run', '7')
            self.is_tried(ran)
            self.assertIn('of other sources', ran[2])
        self.builds()
        self.is_proved()
        write(f'{self.top}/crates/low/src/more.rt', 'a file more')
        self.is_tried(self.call('run', '7'))
        self.builds()
        self.is_proved()

    def test_a_crate_more_below_counts_and_one_beside_does_not(self):
        self.builds()
        write(f'{self.top}/crates/other/src/lib.rt', 'changed')
        write(f'{self.top}/crates.txt', '# crates\nlow:\nother: low\nthird:\nvatbramble: low futures\n')
        self.is_proved()
        write(f'{self.top}/crates.txt', '# crates\nlow:\nother: low\nvatbramble: low other futures\n')
        self.is_tried(self.call('run', '7'))

    def test_times_do_not_count(self):
        self.builds()
        path = f'{self.top}/crates/low/src/lib.rt'
        for text, at in (('new text', 1), ('low', time.time() + 1000)):
            write(path, text)
            os.utime(path, (at, at))
            if text == 'low':
                self.is_proved()
            else:
                self.is_tried(self.call('run', '7'))

    def test_a_build_that_is_refused(self):
        write(f'{self.kit}/refuse', '')
        self.is_refused(self.call('build'), 74, 'a goal is open')
        self.is_tried(self.call('run', '7'))
        os.remove(f'{self.kit}/refuse')
        self.builds()
        self.is_proved()

    def test_a_program_that_answers_otherwise_is_not_kept(self):
        write(f'{self.top}/crates/vatbramble/stdout', 'something else\n')
        self.is_refused(self.call('build'), 74, 'not the stored one')
        self.is_tried(self.call('run', '7'))

    def test_sources_that_change_during_the_build(self):
        write(f'{self.kit}/change', '')
        self.is_refused(self.call('build'), 74, 'changed during the build')
        self.is_tried(self.call('run', '7'))


class AtOnce(Script):
    def begins(self, **how):
        """A build that waits once it has begun."""
        write(f'{self.kit}/wait', '')
        build = subprocess.Popen(self.command(['build']), env=self.environment(), stdout=subprocess.DEVNULL,
                                 stderr=subprocess.PIPE, text=True, **how)
        self.addCleanup(build.stderr.close)
        self.until(lambda: self.has('begun'))
        return build

    def until(self, holds):
        for _ in range(LIMIT * 20):
            if holds():
                return
            time.sleep(0.05)
        self.fail('it took too long')

    def test_a_run_during_a_build_is_answered_unproved(self):
        build = self.begins()
        self.is_tried(self.call('run', '7'))
        os.remove(f'{self.kit}/wait')
        self.assertEqual(build.wait(LIMIT), 0)
        self.assertEqual(self.call('run', '7')[1], 'proved: run 7\n')

    def test_of_two_builds_one_builds(self):
        build = self.begins()
        other = subprocess.Popen(self.command(['build']), env=self.environment(), stderr=subprocess.PIPE, text=True)
        self.assertIn('another build is at work', other.stderr.readline())
        os.remove(f'{self.kit}/wait')
        self.assertIn('the proved program is built', other.communicate(timeout=LIMIT)[1])
        self.assertEqual((build.wait(LIMIT), other.returncode), (0, 0))
        self.assertEqual(len(self.calls()), 1)

    def test_a_build_that_is_cut_off(self):
        build = self.begins(start_new_session=True)
        os.killpg(build.pid, signal.SIGKILL)
        build.wait(LIMIT)
        os.remove(f'{self.kit}/wait')
        self.is_tried(self.call('run', '7'))
        self.builds()
        self.assertEqual(self.call('run', '7')[1], 'proved: run 7\n')

    def test_calls_at_once(self):
        calls = [subprocess.Popen(self.command(['run', '7']), env=self.environment(), stdin=subprocess.DEVNULL,
                                  stdout=subprocess.PIPE, stderr=subprocess.PIPE, text=True) for _ in range(4)]
        for call in calls:
            self.assertEqual(call.communicate(timeout=LIMIT)[0], 'tried\n')
            self.assertEqual(call.returncode, 0)


class WithToolchain(unittest.TestCase):
    """The repository's own script, in a clone of this checkout's files, unproved."""

    def call(self, *words, text=''):
        ran = subprocess.run([f'{self.top}/vatbramble', *words], input=text, text=True, capture_output=True,
                             cwd=self.room, timeout=600)
        return ran.returncode, ran.stdout, ran.stderr

    def test_the_first_run(self):
        self.room = tempfile.mkdtemp(prefix='test script ')
        self.addCleanup(shutil.rmtree, self.room, True)
        self.top = os.path.join(self.room, 'a copy')
        shutil.copytree(TOP, self.top, ignore=shutil.ignore_patterns('out', '.git'))
        with open(f'{TOP}/crates/vatbramble/stdout', encoding='utf-8') as file:
            report = file.read()
        begun = time.time()
        ran = self.call('run', '7', f'{self.top}/examples/one_call.txt')
        print(f'the first run took {time.time() - begun:.0f} seconds', file=sys.stderr)
        self.assertEqual(ran[:2], (0, report))
        self.assertIn(NOT_PROVED, ran[2])
        self.assertEqual(self.call('run', '0')[0], 2)
        os.mkdir(f'{self.room}/texts')
        for file in pathlib.Path(TOP, 'examples').glob('*.txt'):
            shutil.copy(file, f'{self.room}/texts')
        self.assertEqual(self.call('runs', '1000', 'texts', 'reports')[0], 3)
        for file in pathlib.Path(TOP, 'examples').glob('*.report'):
            self.assertEqual(pathlib.Path(self.room, 'reports', file.name).read_bytes(), file.read_bytes())
        self.assertEqual(self.call('run', '7', text='scenario 3\n')[:2], (3, 'bad scenario line 1\n'))
        self.assertEqual(self.call('run', '7', text='x' * 1_048_577)[:2], (6, 'text too long\n'))
        text = 'scenario 1\nhandles 9\ntable 9000\nidle trap\ninstance a\nexport f callback 0\n' + 'set r1 1\n' * 4000
        text += 'ret 1\nexit\nmain\n' + 'start a.f\n' * 40 + 'answer 1\nend\n'
        text = text.replace('answer', 'finish 1 r0\n' + ''.join(f'finish {k} r0\n' for k in range(2, 41)) + 'answer')
        self.assertEqual(self.call('run', '1000000', text=text)[:2], (72, ''))


if __name__ == '__main__':
    real = sys.argv[1:] == ['toolchain']
    suite = unittest.TestSuite()
    for case in [WithToolchain] if real else [Unproved, Words, Built, AtOnce]:
        suite.addTests(unittest.defaultTestLoader.loadTestsFromTestCase(case))
    sys.exit(not unittest.TextTestRunner(verbosity=1).run(suite).wasSuccessful())
