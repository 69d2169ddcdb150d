"""Compares the proved reader with the second one on made texts: compare_reading.py PROGRAM [COUNT [SEED]].

PROGRAM takes texts on standard input, one a line in hexadecimal, and prints a line for each. Both readers are also held to the
table in readings.txt: a text on one line, and on the next, behind four spaces, what it gives.
"""

import collections
import pathlib
import subprocess
import sys

from reader import read, shown
from texts import texts


def answers(program, made):
    """What the program says of each text."""
    given = "".join(t.hex() + "\n" for t in made)
    ran = subprocess.run([program], input=given, capture_output=True, text=True, check=True)
    lines = ran.stdout.splitlines()
    if len(lines) != len(made):
        sys.exit(f"{len(made)} texts, {len(lines)} answers")
    return lines


def table():
    """The texts of the table, and what each gives."""
    lines = (pathlib.Path(__file__).parent / "readings.txt").read_text().splitlines()
    start = next(i for i, line in enumerate(lines) if not line.startswith("#")) + 1
    rows = list(zip(lines[start::2], lines[start + 1::2], strict=True))
    return [(text.encode(), expected.removeprefix("    ")) for text, expected in rows]


def check_table(program):
    rows = table()
    for (text, expected), line in zip(rows, answers(program, [text for text, _ in rows])):
        for who, said in (("the program", line), ("the second reader", shown(read(text)))):
            if said != expected:
                sys.exit(f"differs at {text!r}\n  {who}: {said}\n  the table: {expected}")
    print(f"{len(rows)} texts read as the table says")


def main():
    program = sys.argv[1]
    check_table(program)
    count = int(sys.argv[2]) if len(sys.argv) > 2 else 4000
    seed = int(sys.argv[3]) if len(sys.argv) > 3 else 1995
    made = list(texts(seed, count))
    lines = answers(program, made)
    seen = collections.Counter()
    for text, line in zip(made, lines):
        expected = shown(read(text))
        seen[" ".join(expected.split()[:2]) if expected.startswith("refused") else "read"] += 1
        if line != expected:
            sys.exit(f"differs at {text!r}\n  the program: {line}\n  the second reader: {expected}")
    for needed in ["read"] + [f"refused {n}" for n in range(1, 6)]:
        if not seen[needed]:
            sys.exit(f"no text came out as '{needed}'")
    print(f"{len(made)} texts read alike (seed {seed}): " + ", ".join(f"{k} {n}" for k, n in sorted(seen.items())))


if __name__ == "__main__":
    main()
