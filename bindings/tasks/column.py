"""A line of RFC 3339 for each number of a column of milliseconds since 1970."""

import array
import sys

import movaliren

column = array.array("q", [0, 1_795_362_906_120, -1, 253_402_300_799_999])
sys.stdout.buffer.write(movaliren.rfc3339_lines(column, unit="ms"))
