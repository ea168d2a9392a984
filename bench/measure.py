#!/usr/bin/env python3
"""Measures this repository's program and a plain program of the same task side by side.

    bench/measure.py PLAIN [--texts FOLDER] [--ours PROGRAM] [--runs N] [--own]

Both programs get the same texts, one after the other in turns, N times each, and their reports are compared: the empty one, a
short one, the longest scripts, the longest text, what `make 256` writes, and each text of the folder, which run for a million
steps; with `--own` those of texts.py too. For each it prints a row of a table: the processor seconds of one run (the least of
N), their ratio (ours to the plain one's; below 1 we are faster) and the middle half of the ratios of the N turns; where a trace
is long enough to tell, the ratio of the runs alone, that is of the times to the first byte of the report, less the same of the
empty run, as both programs print once the run is over; and the bytes of memory that a label takes, by the pages that were
touched. Exit status 1 where a report differs.
"""
import argparse
import os
import subprocess
import sys
import tempfile
import time

import texts

TOP = os.path.dirname(os.path.dirname(os.path.abspath(__file__)))
HEAD = "scenario 1\nhandles 100000\ntable 1000000\nidle trap\ninstance a\nexport f callback 1\n"
TAIL = "main\nstart a.f 18446744073709551615\nfinish 1 r0\nanswer r0\nend\n"
LEAST_LABELS = 100_000
MILLION = ["run", "1000000"]


def cases(options):
    """Name, words and text of each case; the first is the empty run."""
    yield "empty text", ["run", "1"], ""
    yield "short text", MILLION, HEAD + "ret r0\nexit\n" + TAIL
    ops = ["ret 18446744073709551615"] + ["exit"] * 4095
    yield "longest script of short lines", MILLION, HEAD + "\n".join(ops) + "\n" + TAIL
    ops = ["ret 18446744073709551615"] * 4096
    yield "longest script of long lines", ["run", "2"], HEAD + "\n".join(ops) + "\n" + TAIL
    yield "longest text", ["run", "1"], longest(1_048_576)
    yield "256 starts of plain ops", MILLION, HEAD + script(4096) + starts(256)
    yield "make 256", MILLION, subprocess.run([options.plain, "make", "256"], capture_output=True, text=True, check=True).stdout
    for name in sorted(os.listdir(options.texts)) if options.texts else []:
        with open(os.path.join(options.texts, name)) as file:
            yield os.path.splitext(name)[0], MILLION, file.read()
    if options.own:
        yield from texts.all_texts()


def script(length):
    """Plain ops of each kind in turn, then a return and an exit."""
    ops = ["set r1 7", "add r2 r1", "add r1 18446744073709551615", "handle r3 r2"]
    ops += ["store 3 r2", "load r4 3", "skip_eq r1 r2 1", "add r5 1"]
    lines = [ops[i % len(ops)] for i in range(length - 2)] + ["ret r2", "exit"]
    return "".join(line + "\n" for line in lines)


def starts(count):
    numbers = range(1, count + 1)
    lines = ["main", *(f"start a.f {k}" for k in numbers), *(f"finish {k} r0" for k in numbers), "answer r0", "end"]
    return "".join(line + "\n" for line in lines)


def longest(size):
    """A text of so many bytes or a few less, with scripts of long lines."""
    text, line, end = HEAD + "exit\n", "add r1 18446744073709551615\n", starts(1)
    for export in range(255):
        text += f"export f{export} callback 1\n"
        room = (size - len(text) - len(end)) // len(line)
        text += line * min(room, 4096)
        if room < 4096 + 2:
            break
    return text + end


def once(program, words, path):
    """The processor seconds, the bytes of the pages that were touched, and the output of one run."""
    with open(path, "rb") as text, tempfile.TemporaryFile() as out:
        child = subprocess.Popen([program, *words], stdin=text, stdout=out, stderr=subprocess.DEVNULL)
        _, status, usage = os.wait4(child.pid, 0)
        child.returncode = os.waitstatus_to_exitcode(status)
        out.seek(0)
        return usage.ru_utime + usage.ru_stime, usage.ru_minflt * os.sysconf("SC_PAGE_SIZE"), (child.returncode, out.read())


def to_first_byte(program, words, path):
    """The seconds from the start of one run to the first byte that it writes."""
    with open(path, "rb") as text:
        begun = time.perf_counter()
        child = subprocess.Popen([program, *words], stdin=text, stdout=subprocess.PIPE, stderr=subprocess.DEVNULL)
        child.stdout.read(1)
        seconds = time.perf_counter() - begun
        child.stdout.close()
        child.wait()
        return seconds


def measure(programs, words, path, runs):
    """The least seconds and bytes of each program, the ratio of each turn, and what each wrote."""
    seconds, touched, said = ([], []), ([], []), [None, None]
    for _ in range(runs):
        for which, program in enumerate(programs):
            spent, pages, said[which] = once(program, words, path)
            seconds[which].append(spent)
            touched[which].append(pages)
    ratios = sorted(ours / plain for ours, plain in zip(*seconds) if plain > 0)
    return [min(it) for it in seconds], [min(it) for it in touched], ratios, said


def run_alone(programs, words, path, runs):
    """The least seconds that each program takes to its first byte."""
    best = [float("inf")] * 2
    for _ in range(runs):
        for which, program in enumerate(programs):
            best[which] = min(best[which], to_first_byte(program, words, path))
    return best


def ratio(ours, plain):
    return f"{ours / plain:.2f}" if plain > 0 and ours > 0 else "-"


def spread(ratios):
    """The middle half of them."""
    return f"{ratios[len(ratios) // 4]:.2f} to {ratios[len(ratios) * 3 // 4]:.2f}" if ratios else "-"


def labels_of(said):
    return said[1].count(b"\n") - 1


def bytes_a_label(touched, empty, said):
    return f"{(touched - empty) / labels_of(said):.0f}"


def main():
    parser = argparse.ArgumentParser()
    parser.add_argument("plain")
    parser.add_argument("--texts")
    parser.add_argument("--ours", default=os.path.join(TOP, "crates/vatbramble/out/vatbramble"))
    parser.add_argument("--runs", type=int, default=30)
    parser.add_argument("--own", action="store_true")
    options = parser.parse_args()
    programs = [options.ours, options.plain]
    for program in programs:
        if not os.access(program, os.X_OK) or os.path.isdir(program):
            parser.error(f"{program} is no program: './vatbramble build' builds ours")
    if options.texts and not os.path.isdir(options.texts) or options.runs < 1:
        parser.error("FOLDER of --texts is a folder, and the number of --runs is above 0")
    differs, empty, idle = False, None, None
    print("| Text | Ours, s | Plain, s | Ratio | Spread | The run alone | Bytes a label | Plain |\n|---|---|---|---|---|---|---|---|")
    for name, words, text in cases(options):
        with tempfile.NamedTemporaryFile("w") as file:
            file.write(text)
            file.flush()
            best, touched, ratios, said = measure(programs, words, file.name, options.runs)
            is_long = labels_of(said[1]) >= LEAST_LABELS
            alone = run_alone(programs, words, file.name, options.runs) if is_long or not idle else None
        empty, idle = empty or touched, idle or alone
        own = [alone[i] - idle[i] if is_long else 0 for i in range(2)]
        memory = [bytes_a_label(touched[i], empty[i], said[i]) if is_long else "" for i in range(2)]
        cells = [f"{best[0]:.5f}", f"{best[1]:.5f}", ratio(*best), spread(ratios), ratio(*own) if is_long else "", *memory]
        print(f"| {name} | " + " | ".join(cells) + " |", flush=True)
        if said[0] != said[1]:
            print(f"{name}: the programs answer differently")
            differs = True
    sys.exit(1 if differs else 0)


if __name__ == "__main__":
    main()
