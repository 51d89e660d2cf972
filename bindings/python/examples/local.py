"""Logs local time with milliseconds: the clock's, and that of each moment on the standard input, by its seconds since
1970 and its nanosecond."""

import logging
import sys

import movaliren

handler = logging.StreamHandler(sys.stdout)
handler.setFormatter(movaliren.Formatter("%(asctime)s %(message)s"))
handler.handle(logging.makeLogRecord({"msg": "opened"}))
for line in sys.stdin:
    second, nanosecond = map(int, line.split())
    milliseconds = nanosecond // 1_000_000
    made = {"msg": "opened", "created": second + milliseconds / 1000, "msecs": milliseconds}
    handler.handle(logging.makeLogRecord(made))
