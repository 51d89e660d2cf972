#!/usr/bin/env python3
"""Holds the readers of `time_read` and of plans, and the writer of `strftime`, to other programs.

    tools/hold_readers.py [EACH]

- The files of conformance/ are those that make.py makes, and each reader answers each text of these and of the other files as
  their verdicts say. A plan tells no first fault.
- What 420 random descriptions and 420 configurations of ISO 8601 write of EACH random values (3) is read.
- 140 * EACH random descriptions of `strftime` have the texts that the C library writes.

One program, `readers/*.rt.in`, is built by `rt try`, and nothing is proved. With more than 60 for EACH its answers have more
than the megabyte that `rt try` takes. The last line is `N passed, M failed`.
"""
import pathlib
import sys
import tempfile

sys.dont_write_bytecode = True
import random_texts
from tried import TOP, output_of

sys.path.insert(0, str(TOP / "conformance"))
import described
import judge
import make

LIBRARIES = "time_below time_digits time_fmt time_known time_plan time_read".split()


def is_read(_, answer):
    """Whether the text of a value was read; None where there is no text, or no reader of the type."""
    return None if answer in ("no reader", "not written", "no value") else answer == "read"


def is_written(text, answer):
    return answer.encode().decode("unicode_escape") == "written: " + text


def conformance(folder):
    """Each question to a reader, with its verdict."""
    for name, (_, readings) in make.FILES.items():
        for row in judge.rows(folder / (name + ".tsv")):
            for column, reader in readings.items():
                yield "%s %s" % (reader, row["text"].hex()), row[column]
    for name in described.FILES:
        for row in judge.rows(folder / (name + ".tsv")):
            yield "%s %s %s" % (name, row["description"].encode().hex(), row["text"].hex()), row["verdict"]


def questions(folder, each):
    """Each question with what is wanted, and how that is compared with the answer."""
    yield from ((question, verdict, judge.is_right) for question, verdict in conformance(folder))
    yield from ((question, "read", is_read) for question in random_texts.trips(each))
    yield from ((question, text, is_written) for question, text in random_texts.strftime(140 * each))


def main():
    each = int(sys.argv[1]) if len(sys.argv) > 1 else 3
    with tempfile.TemporaryDirectory() as temporary:
        folder = pathlib.Path(temporary)
        make.make(folder, make.START, True)
        files = [folder / (name + ".tsv") for name in make.HERE]
        failures = ["conformance/%s is not what conformance/make.py makes" % file.name for file in files
                    if file.read_bytes() != (TOP / "conformance" / file.name).read_bytes()]
        asked = list(questions(folder, each))
    answers, said = output_of(TOP / "tools/readers", LIBRARIES, "".join(question + "\n" for question, _, _ in asked))
    if len(answers) < len(asked):
        return judge.conclude(0, ["the program gave %d answers to %d questions\n%s" % (len(answers), len(asked), said[-3000:])])
    passed, read = len(files) - len(failures), set()
    for (question, wanted, compare), answer in zip(asked, answers):
        found = compare(wanted, answer)
        passed += found is True
        failures += ["%s: %s, and not %s" % (question, answer, wanted)] * (found is False)
        read |= {" ".join(question.split()[:2])} if found and compare is is_read else set()
    ways = ["%s %s" % (way, name) for way in ("plan", "config") for name in random_texts.TYPES]
    failures += ["no text of %s was read" % way for way in ways if way not in read]
    return judge.conclude(passed, failures)


if __name__ == "__main__":
    sys.exit(main())
