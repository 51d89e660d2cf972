#!/usr/bin/env python3
"""Runs a program by a table of runs, and compares what it writes and how it ends.

runs.py PROGRAM TABLE

A run is a paragraph of the table. Its first lines begin with `#` and say what holds. Each other line has a key:

    words: WORD ..      the words of the command line, quoted as for the shell
    env: NAME=VALUE     a variable of the environment, in which LC_ALL is C and TZ is not set
    in: LINE            a line of standard input; a line of `in-part:` has no line feed
    file: NAME LINE     a line of a file of the folder in which it runs; a line of `file-part:` has no line feed
    from: PATH          standard input, in place of lines
    to: PATH            standard output, in place of `out:`; `to: closed` is a pipe that nobody reads
    out: LINE           a line of standard output; a line of `out-part:` has no line feed
    err: LINE           a line of standard error
    err-has: TEXT       a text that stands in standard error, in place of `err:`
    status: N           the exit status, which is 0 where no line says so

A backslash in a line is read as in Python. It prints each run that is another one, and a last line with the counts.
"""
import os
import pathlib
import shlex
import subprocess
import sys
import tempfile

MANY = ("in", "in-part", "file", "file-part", "out", "out-part", "err", "err-has", "env")
ONE = ("words", "from", "to", "status")
SECONDS = 20


def bytes_of(text):
    return text.encode().decode("unicode_escape").encode("latin-1") if "\\" in text else text.encode()


def runs_of(table):
    """The runs of a table, each with what it says and the lines of its keys in their order."""
    for paragraph in table.read_text().split("\n\n"):
        says, lines = [], []
        for line in filter(None, paragraph.splitlines()):
            if line.startswith("#"):
                says.append(line[1:].strip())
                continue
            key, colon, value = line.partition(":")
            if not colon or key not in MANY + ONE:
                raise SystemExit(f"{table}: no key of a run: {line}")
            lines.append((key, value[1:] if value.startswith(" ") else value))
        if lines:
            yield " ".join(says), lines


def joined(lines, whole, part):
    return b"".join(bytes_of(value) + (b"\n" if key == whole else b"") for key, value in lines if key in (whole, part))


def last(lines, wanted, other):
    return next((value for key, value in lines if key == wanted), other)


def put_files(folder, lines):
    """Writes the files of a run into its folder."""
    for key, value in lines:
        if key in ("file", "file-part"):
            name, _, line = value.partition(" ")
            with open(pathlib.Path(folder, name), "ab") as file:
                file.write(bytes_of(line) + (b"\n" if key == "file" else b""))


def closed_pipe():
    """The end of a pipe that is written to and that nobody reads."""
    reader, writer = os.pipe()
    os.close(reader)
    return writer


def run(program, lines):
    """The status and both outputs of a run."""
    env = {name: value for name, value in os.environ.items() if name not in ("TZ", "TZDIR")}
    env.update(value.split("=", 1) for key, value in lines if key == "env")
    source, sink = last(lines, "from", None), last(lines, "to", None)
    given = {"input": joined(lines, "in", "in-part")}
    if source is not None:
        given = {"stdin": os.open(source, os.O_RDONLY)}
    output = subprocess.PIPE
    if sink is not None:
        output = closed_pipe() if sink == "closed" else os.open(sink, os.O_WRONLY)
    with tempfile.TemporaryDirectory() as folder:
        put_files(folder, lines)
        ran = subprocess.run([program, *shlex.split(last(lines, "words", ""))], stdout=output, stderr=subprocess.PIPE,
                             cwd=folder, env={**env, "LC_ALL": "C"}, timeout=SECONDS, check=False, **given)
    for it in (given.get("stdin"), output if sink is not None else None):
        if it is not None:
            os.close(it)
    return ran.returncode, ran.stdout or b"", ran.stderr


def faults(lines, ran):
    """What of a run is other than the table says."""
    status, out, err = ran
    if status != int(last(lines, "status", "0")):
        yield f"status {status}"
    if last(lines, "to", None) is None and out != joined(lines, "out", "out-part"):
        yield f"standard output {out!r}"
    parts = [bytes_of(value) for key, value in lines if key == "err-has"]
    if any(part not in err for part in parts) or not parts and err != joined(lines, "err", ""):
        yield f"standard error {err!r}"


def main():
    program, table = os.path.abspath(sys.argv[1]), pathlib.Path(sys.argv[2])
    passed = failed = 0
    for says, lines in runs_of(table):
        wrong = list(faults(lines, run(program, lines)))
        passed, failed = passed + (not wrong), failed + bool(wrong)
        if wrong:
            print(f"{table}: {says}: {last(lines, 'words', '')}: {'; '.join(wrong)}")
    print(f"{passed} passed, {failed} failed")
    return 1 if failed or not passed else 0


if __name__ == "__main__":
    sys.exit(main())
