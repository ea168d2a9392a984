#!/usr/bin/env python3
"""Measures `beside` against `run`, on texts of 256 spawned works, with eight aborters that abort half of them.

    bench/beside.py [--ours PROGRAM] [--runs N]

By how often a work pends, it prints the least processor time of N runs of each, which is that of all threads, and the ratio.
"""
import resource
import subprocess

from callgrind import options_of

SPAWNS = 256
ABORTERS = 8
NAMED = 16
POLLS = (44, 912)


def text_of(polls):
    """Main spawns the works and waits for each; the k-th aborter aborts the k-th 16 of them."""
    spawns = range(1, SPAWNS + 1)
    lines = ["scenario 1", "handles 100000", "table 1000000", "idle trap", f"host n polls {polls} value 1", "main"]
    lines += ["spawn n" for _ in spawns] + [f"await {number}" for number in spawns] + ["answer 3"]
    for aborter in range(ABORTERS):
        lines.append("aborter " + " ".join(str(aborter * NAMED + number) for number in range(1, NAMED + 1)))
    return "\n".join(lines + ["end", ""])


def seconds(program, word, text):
    before = resource.getrusage(resource.RUSAGE_CHILDREN)
    report = subprocess.run([program, word, "1000000"], input=text, capture_output=True, text=True, check=True).stdout
    after = resource.getrusage(resource.RUSAGE_CHILDREN)
    assert report.endswith("done 3\n")
    return after.ru_utime + after.ru_stime - before.ru_utime - before.ru_stime


def main():
    options = options_of(runs=61)
    print("| Polls that pend | `run`, s | `beside`, s | Ratio |\n|---|---|---|---|")
    for polls in POLLS:
        text = text_of(polls)
        least = [min(seconds(options.ours, word, text) for _ in range(options.runs)) for word in ("run", "beside")]
        print(f"| {polls} | {least[0]:.4f} | {least[1]:.4f} | {least[1] / least[0]:.2f} |", flush=True)


if __name__ == "__main__":
    main()
