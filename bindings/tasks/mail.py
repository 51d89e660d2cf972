"""The dates of mail on the standard input, as RFC 3339, or why they are none."""

import sys

import movaliren

for date in sys.stdin:
    try:
        print(movaliren.rfc3339(movaliren.read_rfc2822(date.rstrip("\n"), lenient=True)))
    except movaliren.ReadError as error:
        print(f"no date: {error}")
