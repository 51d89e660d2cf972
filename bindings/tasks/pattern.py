"""A moment by the pattern in the syntax of `strftime` that a file has, whose path is the argument."""

import pathlib
import sys

import movaliren

pattern = movaliren.Description.strftime(pathlib.Path(sys.argv[1]).read_text().rstrip())
print(pattern.format_at(1_795_362_906))
