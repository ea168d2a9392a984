"""What the measures by callgrind share: the program that they are given, and the instructions of one run of it."""
import argparse
import os
import re
import shutil
import subprocess
import tempfile

TOP = os.path.dirname(os.path.dirname(os.path.abspath(__file__)))


def options_of(**numbers):
    """The program from the command line, and these numbers if they aren't given there. It ends if something is missing."""
    parser = argparse.ArgumentParser()
    parser.add_argument("--ours", default=os.path.join(TOP, "crates/vatbramble/out/vatbramble"))
    for name, number in numbers.items():
        parser.add_argument(f"--{name}", type=int, default=number)
    options = parser.parse_args()
    if not os.access(options.ours, os.X_OK) or os.path.isdir(options.ours):
        parser.error(f"{options.ours} is no program: './vatbramble build' builds it")
    if shutil.which("valgrind") is None:
        parser.error("valgrind is not on PATH")
    return options


def instructions(words, path):
    """The instructions of one run of these words on a text."""
    with tempfile.NamedTemporaryFile() as counts, open(path, "rb") as text:
        tool = ["valgrind", "--tool=callgrind", f"--callgrind-out-file={counts.name}"]
        subprocess.run([*tool, *words], stdin=text, capture_output=True, check=True)
        return int(re.search(r"^(?:summary|totals): (\d+)", open(counts.name).read(), re.M)[1])
