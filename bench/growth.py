#!/usr/bin/env python3
"""Counts what a step costs where much stands beside it, at two sizes.

    bench/growth.py [--ours PROGRAM]

For each kind of text it prints the instructions of a label at the smaller and at the larger size, counted by callgrind over
20,000 labels once all that the text makes has been made, and the ratio of the two.
"""
import tempfile

import texts
from callgrind import instructions, options_of

LABELS = 20_000


def of_a_label(program, made, text):
    """The instructions of a label, behind the labels by which the text's things are made."""
    with tempfile.NamedTemporaryFile("w") as file:
        file.write(text)
        file.flush()
        few, many = (instructions([program, "run", str(steps)], file.name) for steps in (max(made, 1), made + LABELS))
    return (many - few) / LABELS


def main():
    options = options_of()
    print("| Text | Smaller | Larger | Ratio |\n|---|---|---|---|")
    for name, small, large, made in texts.growing():
        cost = [of_a_label(options.ours, made, text) for text in (small, large)]
        print(f"| {name} | {cost[0]:.0f} | {cost[1]:.0f} | {cost[1] / cost[0]:.2f} |", flush=True)


if __name__ == "__main__":
    main()
