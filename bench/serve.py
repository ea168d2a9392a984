#!/usr/bin/env python3
"""Measures `serve` over the instances of the generated scenario.

    bench/serve.py [--ours PROGRAM] [--runs N]

For each limit it serves 1,000 requests and then 10,000, and prints how many replies there were, the labels that a reply takes, the
instructions of a label and of a request (counted by callgrind), and how many requests are served in a second (the least processor
time of N runs). A request's cost is that of reading its line, which is a part of that of all lines, and that of serving it, which is a
part of that of all replies. A run has at most a million steps. At a limit of 1,024 it has fewer, so that most of 1,000 requests are
open still when it ends, and 2,000 are served, too, since 1,000 never come to that limit.
"""
import os
import resource
import subprocess
import tempfile

from callgrind import instructions, options_of

# By the limit: the most steps of a run, and how many requests are served.
STEPS = {1: 1_000_000, 8: 1_000_000, 64: 1_000_000, 1_024: 250_000}
COUNTS = {1: (1_000, 10_000), 8: (1_000, 10_000), 64: (1_000, 10_000), 1_024: (1_000, 2_000, 10_000)}


def input_of(program, count):
    """The generated scenario, and so many requests of its first export."""
    scenario = subprocess.run([program, "make", "1"], capture_output=True, text=True, check=True).stdout
    return scenario + "".join(f"call edge.req {number % 1_000}\n" for number in range(count))


def served(program, limit, steps, path):
    """The replies that were written, the outcome, and the processor seconds."""
    before = resource.getrusage(resource.RUSAGE_CHILDREN)
    with open(path, "rb") as file:
        words = [program, "serve", str(limit), str(steps)]
        lines = subprocess.run(words, stdin=file, capture_output=True, text=True, check=True).stdout.splitlines()
    after = resource.getrusage(resource.RUSAGE_CHILDREN)
    seconds = after.ru_utime + after.ru_stime - before.ru_utime - before.ru_stime
    return sum(line.startswith("reply ") for line in lines), lines[-1], seconds


def labels(program, limit, path):
    """How many labels the run has: the fewest steps with which it is done, or as many as it may have."""
    few, many = 0, STEPS[limit]
    if served(program, limit, many, path)[1] == "out of steps":
        return many
    while few + 1 < many:
        middle = (few + many) // 2
        if served(program, limit, middle, path)[1] == "out of steps":
            few = middle
        else:
            many = middle
    return many


def of_request(cost, limit, nothing, path, count, replies):
    """A request's part of a cost: of reading all lines, and of serving those that have a reply."""
    read = cost(limit, 1, path)
    return (read - cost(limit, 1, nothing)) / count + (cost(limit, STEPS[limit], path) - read) / replies


def write(folder, program, count):
    path = os.path.join(folder, f"{count}.txt")
    with open(path, "w", encoding="utf-8") as file:
        file.write(input_of(program, count))
    return path


def main():
    options = options_of(runs=7)
    print("| Limit | Requests | Labels | Replies | Labels a reply | Instructions a label | Instructions a request | Requests a second |")
    print("|---|---|---|---|---|---|---|---|")

    def counted(limit, steps, path):
        return instructions([options.ours, "serve", str(limit), str(steps)], path)

    def timed(limit, steps, path):
        return min(served(options.ours, limit, steps, path)[2] for _ in range(options.runs))

    with tempfile.TemporaryDirectory() as folder:
        nothing = write(folder, options.ours, 0)
        for limit in STEPS:
            for count in COUNTS[limit]:
                path = write(folder, options.ours, count)
                replies, _, _ = served(options.ours, limit, STEPS[limit], path)
                made = labels(options.ours, limit, path)
                label = (counted(limit, STEPS[limit], path) - counted(limit, 1, path)) / made
                request = of_request(counted, limit, nothing, path, count, replies)
                speed = 1 / of_request(timed, limit, nothing, path, count, replies)
                row = (limit, count, made, replies, made / replies, label, request, speed)
                print("| " + " | ".join(f"{number:,.0f}" for number in row) + " |", flush=True)


if __name__ == "__main__":
    main()
