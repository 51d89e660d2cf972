"""The tables of docs/COMPONENTS.md, as the code has them.

Names, comments and words in brackets are read in the sources. What a component is, writes and may be called in a text is what a
program prints. The choices and what has no group are written by hand.
"""

import re

PAGE = "docs/COMPONENTS.md"
BELOW = "crates/time_below/src/format_description"
PARTS = "crates/time_fmt/src/parts.rt"
BRACKETS = "crates/time_describe/src/brackets"
# The headings by the groups of components.
GROUPS = {"Date": "Date", "Time": "Time", "Offset": "Offset from UTC", "Timestamp": "Moment"}
# What stands for the values of a key that have no names.
NUMBERS = {"count": "`count:1/../65535`, which is required"}
PROGRAM = r"""//! What the tables show of 1997-11-12 9:55:06.12 -06:00: components by their choices, and the texts
//! of standard input, up to an empty line.
use std::alloc::Global;
use std::io;
use time::format_description::{BorrowedFormatItem, Component, parse_owned, parse_strftime_owned};
use time::formatting::{ComputeMetadata, Formattable};
use time::macros::datetime;
use time::parts::*;

fn text<F: Formattable>(alloc: Global, description: &F) -> String {
    match datetime!(1997-11-12 9:55:06.12 -6).format(alloc, description) {
        Ok(text) => text,
        Err(_) => String::new(alloc),
    }
}

fn show(rt: &HostRuntime, component: Component) -> io::Result<()> {
    let item = BorrowedFormatItem::Component(component);
    let width = item.compute_metadata().max_bytes_needed;
    println!(rt; "component\t{component:?}\t{:?}\t{width}\t{}", component.group(), text(rt.alloc(), &item))
}

fn read(rt: &HostRuntime, spelling: &str) -> io::Result<()> {
    let item = match spelling.as_bytes() {
        [b'%', ..] => parse_strftime_owned(rt.alloc(), spelling.as_bytes()).ok(),
        brackets => parse_owned(rt.alloc(), brackets).ok(),
    };
    match item {
        Some(item) => println!(rt; "spelling\t{spelling}\t{item:?}\t{}", text(rt.alloc(), &item)),
        None => Ok(()),
    }
}

pub fn main(rt: HostRuntime) -> io::Result<()> {
    for line in rt.lines(rt.alloc()) {
        let line = line?;
        if line.is_empty() {
            break;
        }
        read(&rt, line.as_str())?;
    }
"""


class Components:
    """The page, and what the sources have, by a function that reads a file."""

    def __init__(self, read):
        self.page = read(PAGE)
        variants = re.findall(r"((?: {4}///.*\n)+)    (\w+)\(modifier::\w+\),", read(f"{BELOW}/component.rt"))
        self.comments = {name: " ".join(re.findall(r"/// (.*)", said)).removesuffix(".") for said, name in variants}
        self.constants = re.findall(r"^pub const (\w+): modifier::(\w+) =", read(PARTS), re.M)
        self.usual = dict(re.findall(r"^\| `([a-z_]+)` \| `(\w+)` \|", self.page, re.M))
        self.names, self.keys, self.values = (
            dict.fromkeys(re.findall(rf'{word}, b"(.*?)"', read(f"{BRACKETS}/{file}.rt")))
            for word, file in (("word", "names"), ("key", "names"), ("word", "values")))

    def table(self, heading, head):
        """The rows of the first table of this head in a section, and where their lines begin and end."""
        form = re.compile(rf"\n\| {head} \|.*\n\|[-|]+\|\n((?:\|.*\n)+)")
        found = form.search(self.page, self.page.index(f"\n## {heading}\n"))
        return [line.strip("| ").split(" | ") for line in found[1].splitlines()], found.span(1)

    def program(self):
        shown = "".join(f"    show(&rt, Component::{kind}({name}))?;\n" for name, kind in self.constants)
        return PROGRAM + shown + "    Ok(())\n}\n"

    def questions(self):
        """The texts of the page, and each name in brackets, alone and with each key and value."""
        texts = [cell.strip("`") for row in self.table("As texts", "Component")[0] for cell in row[1:]]
        texts += [f"[{name}]" for name in self.names]
        return texts + [f"[{name} {key}:{value}]" for name in self.names for key in self.keys for value in self.values]

    def answer(self, printed):
        """Takes what the program has printed."""
        lines = [line.split("\t") for line in printed.splitlines()]
        self.shown = [line[1:] for line in lines if line[0] == "component"]
        self.spelled = {line[1]: line[2:] for line in lines if line[0] == "spelling"}

    def choices(self, component):
        return ", ".join(f"`{name}`" if self.usual.get(name) == value else f"`{name}: {value}`"
                         for name, value in re.findall(r"(\w+): (\w+)", component))

    def of_group(self, group):
        shown = dict(zip(self.constants, self.shown))
        for kind, comment in self.comments.items():
            for constant in (it for it in self.constants if it[1] == kind and shown[it][1] == group):
                component, _, width, text = shown[constant]
                yield [f"`{kind}`", f"`{constant[0]}`", self.choices(component), comment, width, f"`{text}`"]

    def modifiers(self, name):
        """The keys of a name with their values, the usual one first: it changes nothing, or it is usual where none changes any."""
        for key in self.keys:
            found = {value: self.spelled.get(f"[{name} {key}:{value}]") for value in self.values}
            values = sorted(filter(found.get, found), key=lambda value: (
                found[value] != self.spelled.get(f"[{name}]"), value != self.usual.get(key)))
            if values:
                yield NUMBERS.get(key) or f"`{key}:{'/'.join(values)}`"

    def tables(self):
        """Each table as the code has it, with its heading and the head of its first column."""
        for group, heading in GROUPS.items():
            yield heading, "Component", list(self.of_group(group))
        yield "As texts", "Name", [[f"`{name}`", ", ".join(self.modifiers(name))] for name in self.names]
        spelled = ((row, self.spelled.get(row[1].strip("`"), "-")[0]) for row in self.table("As texts", "Component")[0])
        yield "As texts", "Component", [
            [", ".join(f"`{name}`" for name in re.findall(r"Component\((\w+)\(", item)), *row[1:]] for row, item in spelled]

    def write(self):
        for heading, head, rows in self.tables():
            _, (start, end) = self.table(heading, head)
            self.page = self.page[:start] + "".join(f"| {' | '.join(row)} |\n" for row in rows) + self.page[end:]
        return self.page

    def compared(self):
        """Whether each row is that of the code, whether both texts of a row are the same, and whether each component has one."""
        for heading, head, rows in self.tables():
            found, _ = self.table(heading, head)
            yield from ((row in rows, f"{PAGE}, {heading}: the code has not {' | '.join(row)}") for row in found)
            yield from ((False, f"{PAGE}, {heading}: the page has not {' | '.join(row)}") for row in rows if row not in found)
        texts, _ = self.table("As texts", "Component")
        for _, brackets, strftime in texts:
            is_same = strftime == "-" or self.spelled.get(brackets.strip("`")) == self.spelled.get(strftime.strip("`"))
            yield is_same, f"{PAGE}: {brackets} and {strftime} are not the same"
        named = str([row[0] for row in texts])
        yield from ((f"`{name}`" in named, f"{PAGE}: {name} has no text") for name, said in self.comments.items() if "Deprecated" not in said)
