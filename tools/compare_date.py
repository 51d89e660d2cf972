#!/usr/bin/env python3
"""Compares what `movaliren` makes of logs with GNU `date`.

    tools/compare_date.py PROGRAM [LINES]

LINES (1,000) lines are made of each of seven kinds of logs and of numbers in JSON, of 2002 to 2037, a quarter of them in each
of four zones. `date` writes their times, and the local times that they become, by the system's zone files. Lines of JSON
are read by a parser, too. The last line is `N passed, M failed`.
"""
import json
import os
import random
import subprocess
import sys

ZONES = ["UTC", "Europe/Berlin", "America/New_York", "Australia/Lord_Howe"]
LOCAL = "%Y-%m-%dT%H:%M:%S%:z"
BACK = (3600, 1800)  # by how much clocks are set back in these zones

# A kind, the words that read it, the form in which `date` writes its time, the zone of that (None for the one that is
# shown), a line with a place for it, and the decimals that the line shows.
KINDS = [
    ("audit", ["unix"], "%s.123", "UTC0", "type=SYSCALL msg=audit({}:24287): arch=c000003e syscall={} success=no", ".123"),
    ("squid", ["unix"], "%s.001", "UTC0", "{}    310 192.168.0.1 TCP_MISS/200 {} GET http://www.example.com/ -", ".001"),
    ("nginx", ["read", "--from", "clf"], "%d/%b/%Y:%H:%M:%S %z", None,
     '127.0.0.1 - frank [{}] "GET /apache_pb.gif HTTP/1.0" 200 {}', ""),
    ("syslog", ["read", "--from", "syslog"], "%b %e %H:%M:%S", None, "<34>{} mymachine su[{}]: 'su root' failed", ""),
    ("docker", ["read", "--json"], "%Y-%m-%dT%H:%M:%S.123456789Z", "UTC0", '{{"log":"{1}\\\\n","time":"{0}"}}', ".123456789"),
    ("numbers in JSON", ["unix", "--json", "--after", '"ts":'], "%s.123", "UTC0", '{{"id":1234567890,"ts":{},"msg":"up \\"{}\\""}}', ".123"),
    ("log4j", ["read", "--from", "log4j"], "%Y-%m-%d %H:%M:%S,120", None, "{} [main] INFO  com.example.App - {}", ".120"),
    ("mail", ["read", "--from", "rfc2822"], "%a, %d %b %Y %H:%M:%S %z", None, "Date: {}; {}", ""),
]


def output_of(words, lines, zone=None):
    env = dict(os.environ, LC_ALL="C", **({"TZ": zone} if zone else {}))
    given = "".join(line + "\n" for line in lines)
    return subprocess.run(words, input=given, stdout=subprocess.PIPE, env=env, check=True, text=True).stdout.split("\n")[:-1]


def date(seconds, form, zone):
    return output_of(["date", "-f", "-", "+" + form], ["@%d" % second for second in seconds], zone)


def shown(text, decimals):
    """The local time that `date` writes, as RFC 3339 has it, with decimals."""
    return (text[:19] + decimals + text[19:]).replace("+00:00", "Z")


def first(seconds, form, zone):
    """Each second, or the earlier one at which clocks show the same."""
    texts = date(seconds, form, zone)
    found = list(seconds)
    for back in BACK:
        before = date([it - back for it in seconds], form, zone)
        found = [it - back if a == b else old for it, a, b, old in zip(seconds, texts, before, found)]
    return found


def is_json(line):
    """Whether a parser reads the line, and finds an object."""
    try:
        return isinstance(json.loads(line), dict)
    except ValueError:
        return False


def compared(program, kind, zone, count):
    """How many lines passed and failed, of which the first one is printed."""
    what, words, form, written_in, line, decimals = kind
    quote = '"' if what == "numbers in JSON" else ""
    years = (2024, 2024) if what == "syslog" else (2002, 2037)
    begin, end = (31_556_952 * (year - 1970) for year in (years[0], years[1] + 1))
    seconds = [random.randrange(begin + 3 * 86_400, end - 5 * 86_400) for _ in range(count)]
    texts = date(seconds, form, written_in or zone)
    moments = first(seconds, form, zone) if what in ("syslog", "log4j") else seconds
    wanted = [line.format(quote + shown(it, decimals) + quote, n) for n, it in enumerate(date(moments, LOCAL, zone))]
    words = [program, *words, "-q", "--zone", zone, *(["--year", "2024"] if what == "syslog" else [])]
    ours = output_of(words, [line.format(it, n) for n, it in enumerate(texts)])
    wrong = [(a, b) for a, b in zip(ours, wanted) if a != b or "--json" in words and not is_json(a)]
    for a, b in wrong[:1]:
        print(f"{what} in {zone}: {a!r}, and not {b!r}")
    return len(ours) - len(wrong), len(wrong) + abs(len(wanted) - len(ours))


def main():
    random.seed(23)
    program = os.path.abspath(sys.argv[1])
    count = int(sys.argv[2]) if len(sys.argv) > 2 else 1000
    found = [compared(program, kind, zone, count // 4) for kind in KINDS for zone in ZONES]
    passed, failed = map(sum, zip(*found))
    print(f"{passed} passed, {failed} failed")
    return 1 if failed or not passed else 0


if __name__ == "__main__":
    sys.exit(main())
