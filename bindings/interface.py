#!/usr/bin/env python3
"""Writes what the header and the Rust crate have from the code.

The exports of movaliren_c give the prototypes of movaliren.h, each in its place, and the functions and structs of `sys.rs`;
`answers/reason.rt` gives the reasons, also of C++ and Rust, and `answers/library.rt` their words.

    bindings/interface.py               writes the two headers, and `sys.rs` of the Rust crate
    bindings/interface.py --check       ends with status 1 where one is not what would be written, and with a line
                                        `N passed, M failed`
    bindings/interface.py --functions   prints the names of the header's functions
"""

import pathlib
import re
import sys
import textwrap

HERE = pathlib.Path(__file__).resolve().parent
CRATES = HERE.parent / "crates"
SOURCES = CRATES / "movaliren_c/src"
HEADER = HERE / "c/movaliren.h"
HEADER_OF_CPP = HERE / "c/movaliren.hpp"
SYS = HERE / "rust/src/sys.rs"
# The Rust crate documents these, and they have private fields.
OF_RUST = ["Moment", "UtcMoment"]
# The calls whose result is to be tested.
CHECKED = ["movaliren_read_rfc", "movaliren_read_iso", "movaliren_description_parse", "movaliren_description_read"]
C_TYPES = {
    "i8": "int8_t", "u8": "uint8_t", "i32": "int32_t", "u32": "uint32_t", "i64": "int64_t", "usize": "size_t",
    "isize": "ptrdiff_t",
}
FIELD = r"(\w+): (\w+|\[\w+; \d+\]),"
# What is written in a file that has more by hand.
PROTOTYPE = r"^\w+ (movaliren_\w+)\([^)]*\)(?:\s+MOVALIREN_(?:NONNULL_\(\d\)|CHECKED_))*;"
ERRORS = r"enum movaliren_error \{.*?\n\};"
ERRORS_OF_CPP = r"enum class errc : int \{.*?\n\};"
CASES = r"(?<=switch \(error\) \{\n)(?:    case MOVALIREN_ERROR_\w+: return [^\n]*\n)+"
# Reasons that no call returns, so that the interfaces have none of them.
NEVER = {"OutOfMemory", "Other"}
# What is said of a reason beside its words.
REMARKS = {
    "BufferTooSmall":
        "a format says by its MOVALIREN_.._SIZE how much is enough, and a description by movaliren_description_max_length",
}


def source(name="**/*"):
    return "\n".join(re.sub(r"//.*", "", path.read_text()) for path in sorted(SOURCES.glob(f"{name}.rt")))


def snake(name):
    return re.sub(r"(?<=[a-z])(?=[A-Z0-9])", "_", name)


# ---- functions and structs


def structs(*code):
    """Each struct that crosses, with its fields."""
    found = re.findall(r"#\[repr\(C\)\][^{]*struct (\w+) \{(.*?)\n\}", "\n".join(code or [source()]), re.S)
    return {name: re.findall(FIELD, body) for name, body in found}


def exports():
    """Each function by its name: its parameters, and the type of its result. A type is that of Rust, a `*` that is
    followed by `const` or `mut`, or a slice."""
    functions = {}
    for name, taken, result in re.findall(r'extern "C" fn (movaliren_\w+)\((.*?)\)\s*->\s*(\w+)', source(), re.S):
        parameters = []
        for parameter, kind in re.findall(r"(\w+): ([^,]+)", taken):
            reference = re.fullmatch(r"&(mut )?(\[)?(\w+)\]?", kind.strip())
            if reference:
                parameters.append((parameter, ("mut " if reference[1] else "const ") + reference[3]))
                if reference[2]:
                    # What is written to has a size in bytes.
                    size = "size" if reference[1] else "len"
                    parameters.append((f"{parameter}_{size}", "usize"))
            else:
                parameters.append((parameter, kind.strip()))
        functions[name] = (parameters, result)
    return functions


def struct_name(name):
    """The name of a struct in C: Iso8601Config is iso8601_config."""
    return re.sub(r"(?<=[a-z0-9])(?=[A-Z])", "_", name).lower()


def attributes(name, parameters):
    """What the compiler is told: which pointers are to one object and so not null, and whose result is to be tested."""
    sizes = {parameter for parameter, kind in parameters if kind == "usize"}
    alone = lambda parameter: not sizes & {f"{parameter}_{size}" for size in ("len", "size", "capacity")}
    words = [f"MOVALIREN_NONNULL_({place})" for place, (parameter, kind) in enumerate(parameters, 1)
             if " " in kind and alone(parameter)]
    is_read = any(name.startswith(head) for head in CHECKED)
    return words + ["MOVALIREN_CHECKED_"] * is_read


def c_type(kind):
    """The type with the space after it. Bytes are behind a `void *`, so that a caller may have an array of `char`."""
    way, _, name = kind.rpartition(" ")
    of_c = C_TYPES.get(name) or f"struct movaliren_{struct_name(name)}"
    if not way:
        return f"{of_c} "
    return ("const " if way == "const" else "") + ("void *" if name == "u8" else f"{of_c} *")


def prototype(name, function):
    """The prototype, in lines of at most 120 columns, which end between parameters."""
    parameters, result = function
    words = ", ".join(f"{c_type(kind)}{parameter}".replace(" ", "\0") for parameter, kind in parameters)
    # Where the first parameter does not fit the line of the name, it begins the next one.
    after = " " if len(f"{c_type(result)}{name}({words.split(' ')[0]}") > 120 else ""
    line = f"{c_type(result)}{name}".replace(" ", "\0") + f"({after}{words or 'void'})"
    line = " ".join([line, *attributes(name, parameters)]) + ";"
    if any(len(part) > 120 for part in textwrap.wrap(line, 120)):
        raise SystemExit(f"interface.py: {name} has too long a name for a line")
    return textwrap.fill(line, 120, subsequent_indent="    ").replace("\0", " ")


def with_prototypes(header):
    functions = exports()
    declared = re.findall(PROTOTYPE, header, re.M)
    if sorted(declared) != sorted(functions):
        raise SystemExit(f"interface.py: in the header or the code alone: {set(declared) ^ set(functions) or 'one twice'}")
    return re.sub(PROTOTYPE, lambda found: prototype(found[1], functions[found[1]]), header, flags=re.M), declared


# ---- reasons


def reasons():
    """Each reason by its number: its name and its words."""
    body = re.search(r"fn words_numbered.*?\n\}", source("answers/library"), re.S)[0]
    words = {int(number): said for number, said in re.findall(r'^ +(\d+) =>\s*b("[^"]*")', body, re.M)}
    named = re.search(r"enum Reason \{(.*?)\n\}", source("answers/reason"), re.S)[1]
    found = re.findall(r"(\w+) = (\d+)", named)
    return [(int(number), name, words[int(number)]) for name, number in found if name not in NEVER]


def comment(said):
    """A comment in lines of at most 100 columns, whose end stays on the last one."""
    lines = textwrap.fill(f"/* {said}\0*/", 100, initial_indent="    ", subsequent_indent="     * ")
    return lines.replace("\0", " ")


def upper(name):
    return snake(name).upper()


def error_enum():
    lines = []
    for number, name, _ in reasons():
        lines += [comment(REMARKS[name])] if name in REMARKS else []
        lines += [f"    MOVALIREN_ERROR_{upper(name)} = -{number},"]
    return "enum movaliren_error {\n" + "\n".join(lines).removesuffix(",") + "\n};"


def errors_of_cpp():
    lines = [f"    {snake(name).lower()} = MOVALIREN_ERROR_{upper(name)}," for _, name, _ in reasons()]
    return "enum class errc : int {\n" + "\n".join(lines).removesuffix(",") + "\n};"


def error_cases():
    return "".join(f"    case MOVALIREN_ERROR_{upper(name)}: return {said};\n" for _, name, said in reasons())


# ---- files


def sentence(words):
    """The words of a literal as a sentence."""
    said = words.strip('"')
    return f"{said[0].upper()}{said[1:]}."


def error_of_rust():
    lines = ["/// The reason why there is no text, or none is read.", "#[derive(Clone, Copy, Debug, PartialEq, Eq, Hash)]"]
    lines += ["#[non_exhaustive]", "#[repr(i8)]", "pub enum Error {"]
    for number, name, said in reasons():
        lines += [f"    /// {sentence(said)}", f"    {name} = -{number},"]
    lines += ["    /// A reason of a later library, which this crate does not know.", f"    Unknown = i8::MIN,", "}", ""]
    lines += ["pub(crate) fn error_of(number: isize) -> Error {", "    match number {"]
    lines += [f"        -{number} => Error::{name}," for number, name, _ in reasons()]
    return lines + ["        _ => Error::Unknown,", "    }", "}"]


def sys_of_rust(declared):
    """The module of the Rust crate that has nothing by hand, with the functions in the header's order."""
    pointed = lambda kind: "*" * (" " in kind) + kind
    lines = ["//! What `bindings/interface.py` writes from the code of the library.", "use crate::{Moment, UtcMoment};", ""]
    for name, fields in structs().items():
        if name not in OF_RUST:
            # Long arrays have no `Default`.
            derived = "" if any(kind.startswith("[") for _, kind in fields) else ", Default, PartialEq, Eq, Hash"
            lines += ["#[repr(C)]", f"#[derive(Clone, Copy, Debug{derived})]", f"pub(crate) struct {name} {{"]
            lines += [*(f"    pub(crate) {field}: {kind}," for field, kind in fields), "}", ""]
    lines += ["// Some are for C alone.", "#[allow(dead_code)]", 'extern "C" {']
    functions = exports()
    for name in declared:
        parameters, result = functions[name]
        taken = ", ".join(f"{parameter}: {pointed(kind)}" for parameter, kind in parameters)
        lines.append(f"    pub(crate) fn {name}({taken}) -> {result};")
    return "\n".join([*lines, "}", "", *error_of_rust()]) + "\n"


def replaced(text, form, written):
    """The text with what is written in the place of what has this form."""
    changed, count = re.subn(form, lambda _: written, text, flags=re.S | re.M)
    if count != 1:
        raise SystemExit(f"interface.py: nothing of the form {form}")
    return changed


def written():
    """Each file, as it is to be."""
    header, declared = with_prototypes(HEADER.read_text())
    header = replaced(header, ERRORS, error_enum())
    header = replaced(header, CASES, error_cases())
    of_cpp = replaced(HEADER_OF_CPP.read_text(), ERRORS_OF_CPP, errors_of_cpp())
    return {HEADER: header, HEADER_OF_CPP: of_cpp, SYS: sys_of_rust(declared)}


def main():
    if sys.argv[1:] == ["--functions"]:
        print("\n".join(sorted(exports())))
        return 0
    files = written()
    old = [path for path, text in files.items() if not path.exists() or path.read_text() != text]
    if sys.argv[1:] != ["--check"]:
        for path in old:
            path.write_text(files[path])
        return 0
    for path in old:
        print(f"{path.name} is not what the code gives: run bindings/interface.py")
    print(f"{len(files) - len(old)} passed, {len(old)} failed")
    return 1 if old else 0


if __name__ == "__main__":
    sys.exit(main())
