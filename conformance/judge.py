#!/usr/bin/env python3
"""Holds a reader to a file of conformance texts.

    judge.py FILE READING PROGRAM [WORD ..]

READING is the column of the verdicts: `strict` or `lenient` of rfc3339.tsv, `verdict` of any other file. The words run a
program. Each line of its standard input is a text in hexadecimal digits, of which some have none. It answers each by a
line: `+ SECONDS NANOSECOND OFFSET`, or `- FAULT`, or `-` where it does not know the first fault.
"""
import pathlib
import re
import subprocess
import sys

ESCAPES = {"t": 9, "n": 10, "r": 13, "\\": 92}
SHOWN = 20


def unescaped(shown):
    """The bytes of a text on a line."""
    found = re.sub(r"\\(x[0-9a-f]{2}|.)", lambda m: chr(int(m[1][1:], 16) if m[1][0] == "x" else ESCAPES[m[1]]), shown)
    return found.encode("latin-1")


def rows(path):
    """Each row of a file by the names of its columns, which the second line has. The text is bytes."""
    lines = pathlib.Path(path).read_text(encoding="ascii").splitlines()
    columns = lines[1].removeprefix("# ").split("\t")
    for line in lines:
        if not line.startswith("# "):
            row = dict(zip(columns, line.split("\t")))
            yield {**row, "text": unescaped(row["text"])}


def is_right(verdict, answer):
    """Whether an answer is the value or the first fault of a verdict, or refuses the text without a fault."""
    value_or_fault = verdict if verdict[0] == "+" else " ".join(verdict.split()[:2])
    return answer == value_or_fault or answer == "-" == verdict[0]


def conclude(passed, failures):
    """Prints some failures and the count, and returns the status."""
    print("\n".join([*failures[:SHOWN], "%d passed, %d failed" % (passed, len(failures))]))
    return 1 if failures or not passed else 0


def main():
    if len(sys.argv) < 4:
        print(__doc__)
        return 2
    file, reading, *words = sys.argv[1:]
    asked = list(rows(file))
    given = "".join(row["text"].hex() + "\n" for row in asked)
    answers = subprocess.run(words, input=given, stdout=subprocess.PIPE, text=True, check=True).stdout.splitlines()
    if len(answers) != len(asked):
        return conclude(0, ["%d answers to %d texts" % (len(answers), len(asked))])
    failures = ["%r: %s, and not %s" % (row["text"], answer, row[reading])
                for row, answer in zip(asked, answers) if not is_right(row[reading], answer)]
    return conclude(len(asked) - len(failures), failures)


if __name__ == "__main__":
    sys.exit(main())
