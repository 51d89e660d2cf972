#!/usr/bin/env python3
"""Prints a program of C that has each example in the comments of movaliren.h as a function."""

import pathlib
import re

HEADER = pathlib.Path(__file__).resolve().parent / "c/movaliren.h"
# What the examples use and do not declare.
BEFORE = """\
#define _DEFAULT_SOURCE
#include <movaliren.h>
#include <time.h>

static const struct movaliren_iso8601_config milliseconds = MOVALIREN_ISO8601_DECIMALS(3);
static struct timespec now;
static char line[100], text[100];
static const int64_t numbers[1000];
static ptrdiff_t n;
"""


def main():
    comments = re.findall(r"/\*.*?\*/", HEADER.read_text(), re.S)
    examples = [found for comment in comments for found in re.findall(r"(?:^ \*     [^\n]*\n?)+", comment, re.M)]
    print(BEFORE)
    for number, example in enumerate(example for example in examples if ";" in example):
        lines = re.sub(r"^ \*|\*/$", "", example, flags=re.M).replace(", ..)", ", text, sizeof text)")
        print(f"void example_{number}(void);\nvoid example_{number}(void)\n{{\n{lines}}}\n")


if __name__ == "__main__":
    main()
