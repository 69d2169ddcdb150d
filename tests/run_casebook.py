"""Runs casebook on each text of casebook.txt and compares what it prints: run_casebook.py PROGRAM.

A block is a text, with what is printed for it on the lines below, and a blank line; a text may be empty. It is given as an argument, and on
standard input without and with a line's end.
"""

import pathlib
import subprocess
import sys


def blocks(lines):
    """The text of each block, and the lines below it."""
    i = 0
    while i < len(lines):
        text, i, expected = lines[i], i + 1, []
        while i < len(lines) and lines[i]:
            expected.append(lines[i])
            i += 1
        i += 1
        yield text, expected


def main():
    program = sys.argv[1]
    lines = pathlib.Path(__file__).with_name("casebook.txt").read_text().split("\n")[:-1]
    count = 0
    for text, expected in blocks(lines):
        args = ["--tidy", text[7:]] if text.startswith("--tidy ") else [text]
        # With a line's end behind it, a text that ends too early is refused a byte later.
        early = expected == [f"refused 3 {len(args[-1])}"]
        later = [f"refused 3 {len(args[-1]) + 1}"] if early else expected
        for given, stdin, wanted in ((args, "", expected), (args[:-1], args[-1], expected), (args[:-1], args[-1] + "\n", later)):
            ran = subprocess.run([program, *given], input=stdin, capture_output=True, text=True, check=True)
            if ran.stdout.split("\n")[:-1] != wanted:
                sys.exit(f"casebook {text!r} printed\n{ran.stdout}\nand not\n" + "\n".join(wanted))
        count += 1
    print(f"casebook printed what it should for {count} texts, as arguments and on standard input")


if __name__ == "__main__":
    main()
