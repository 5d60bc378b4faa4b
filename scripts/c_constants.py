#!/usr/bin/env python3
"""Writes the protocol's constants for C, crates/mysql_wire_c/include/mysql_wire_constants.h: the
lengths of wire_buf, and the collations, flags and enums of wire_const, by their names and numbers,
and the sides, senders, phases and kinds of packets of a session, by the numbers that mysql_wire_c
gives them. With --check it writes nothing, and fails where the file is another.
"""
import os
import re
import sys
import textwrap
from glob import glob

TOP = os.path.dirname(os.path.dirname(os.path.abspath(__file__)))
SOURCES = os.path.join(TOP, "crates", "wire_const", "src")
LENGTHS = os.path.join(TOP, "crates", "wire_buf", "src", "lengths.rt")
NUMBERS = os.path.join(TOP, "crates", "mysql_wire_c", "src", "numbers.rt")
HEADER = os.path.join(TOP, "crates", "mysql_wire_c", "include", "mysql_wire_constants.h")

RUST = os.path.join(TOP, "bindings", "rust", "mysql-wire", "src", "session", "numbers.rs")
PYTHON = os.path.join(TOP, "bindings", "python", "mysql_wire", "__init__.py")

# The enums of a session, the file that each stands in, and what its constants begin and end with.
ENUMS = (
    ("Side", "side.rt", "SIDE", "u"),
    ("Sender", "side.rt", "SENDER", ""),
    ("Phase", "phase.rt", "PHASE", ""),
    ("PacketKind", "packet_kind.rt", "KIND", "u"),
)

HEAD = """\
/*
 * The constants of MySQL's client/server protocol, as crates/wire_const has them, whose
 * scripts/c_constants.py wrote this file. A constant bears its name in the protocol after
 * MYSQL_WIRE_, but for a leading MYSQL_. At the end stand those of a session, as
 * crates/mysql_wire_session has them.
 */
#ifndef MYSQL_WIRE_CONSTANTS_H
#define MYSQL_WIRE_CONSTANTS_H
"""

DOC = r"(?P<doc>(?:^[ ]*///[^\n]*\n)+)(?:^[ ]*#\[[^\n]*\n)*"
TYPE = re.compile(DOC + r"^pub (?:struct|enum) (?P<name>\w+)(?:\((?P<of>u\d+)\);| \{)", re.M)
FLAG = re.compile(DOC + r"^ +pub const (?P<name>\w+): Self = Self\((?P<number>\w+)\);", re.M)
VARIANT = re.compile(DOC + r"^ +(?P<name>[A-Z]\w+) = (?P<number>\d+),", re.M)
PLACE = re.compile(r"(?P<doc>(?:^ +///[^\n]*\n)*)^ +(?P<name>[A-Z]\w+)(?: \{[^}]*\}|\(\w+\))?,", re.M)
ARMS = (r"\b%s::(\w+)(?: \{ \.\. \}|\(_\))? => (\d+),", r"\b(\d+) => Some\(%s::(\w+)\),")
CONST = re.compile(DOC + r"^pub const (?P<name>\w+): \w+ = (?P<number>\d+);", re.M)


def sentence(doc):
    """The first sentence of a doc comment."""
    text = " ".join(line.strip().removeprefix("///").strip() for line in doc.strip().split("\n"))
    text = text.replace("`", "").split("<https")[0]
    return re.split(r"(?<=\.) ", text + " ")[0].strip()


def comment(text):
    return "\n".join(textwrap.wrap(f"/* {text} */", 100, subsequent_indent="   "))


def lines(found, suffix):
    """The definitions of constants, each after what it says of itself."""
    for each in found:
        name = "MYSQL_WIRE_" + each["name"].removeprefix("MYSQL_")
        yield comment(sentence(each["doc"]))
        yield f"#define {name} {each['number'].replace('_', '')}{suffix}"


def of_type(text, name, pattern):
    """The constants of one type: those in the block that follows its name."""
    head = re.search(rf"^(?:impl|pub enum) {name} \{{$", text, re.M)
    return pattern.finditer(text[head.end() : text.index("\n}", head.end())] + "\n") if head else ()


def numbers_of(enum):
    """The number of each variant, as the functions of numbers.rt give it."""
    with open(NUMBERS, encoding="utf-8") as file:
        text = file.read()
    found = re.findall(ARMS[0] % enum, text)
    return dict(found or [(name, number) for number, name in re.findall(ARMS[1] % enum, text)])


def enum_text(file):
    """The source of a session's enums, in whichever of its crates the file stands."""
    (path,) = glob(os.path.join(TOP, "crates", "mysql_wire_session*", "src", file))
    with open(path, encoding="utf-8") as source:
        return source.read()


def snake(name):
    return re.sub(r"(?<=[a-z])(?=[A-Z])", "_", name).upper()


def check_packages(enum, numbers):
    """The same variants have the same numbers in the packages for Rust and Python."""
    for path, head, variant, names in (
        (RUST, rf"^ *(?:pub enum )?{enum}\b(?: {{)?$", r"^ +(\w+) = (\d+),$", numbers),
        (PYTHON, rf"^class {enum}\(IntEnum\):$", r"^    (\w+) = (\d+)$", map(snake, numbers)),
    ):
        with open(path, encoding="utf-8") as file:
            text = file.read()
        begin = re.search(head, text, re.M).end()
        end = re.compile(r"^\S", re.M).search(text, begin).start()
        found = re.findall(variant, text[begin:end], re.M)
        if found != list(zip(names, numbers.values())):
            sys.exit(f"{path} has other numbers of {enum} than {NUMBERS}")


def of_enum(enum, file, begins, suffix):
    """The constants of an enum of a session: each of its variants by the number that it is given."""
    text = enum_text(file)
    said = next(each for each in TYPE.finditer(text) if each["name"] == enum)
    found = list(of_type(text, enum, PLACE))
    numbers = numbers_of(enum)
    check_packages(enum, numbers)
    if {each["name"] for each in found} != set(numbers):
        sys.exit(f"{NUMBERS} gives numbers to other variants than {enum} has")
    if len(set(numbers.values())) != len(numbers):
        sys.exit(f"{NUMBERS} gives one number to two variants of {enum}")
    parts = [comment(f"{enum}: {sentence(said['doc'])}") + "\n"]
    for each in found:
        name = f"MYSQL_WIRE_{begins}_{snake(each['name'])}"
        if each["doc"]:
            parts.append(comment(sentence(each["doc"])))
        parts.append(f"#define {name} {numbers[each['name']]}{suffix}")
    return "\n".join(parts) + "\n"


def header():
    parts = [HEAD]
    numbers = []
    for path in (LENGTHS, os.path.join(SOURCES, "lib.rt")):
        with open(path, encoding="utf-8") as file:
            numbers += lines(CONST.finditer(file.read()), "u")
    parts.append("\n".join(numbers) + "\n")
    for path in sorted(glob(f"{SOURCES}/flag_sets/*.rt")) + sorted(glob(f"{SOURCES}/*.rt")):
        with open(path, encoding="utf-8") as file:
            text = file.read()
        for each in TYPE.finditer(text):
            pattern, suffix = (FLAG, "u") if each["of"] else (VARIANT, "")
            if each["of"] == "u64":
                suffix = "ull"
            found = list(lines(of_type(text, each["name"], pattern), suffix))
            if found:
                title = comment(f"{each['name']}: {sentence(each['doc'])}")
                parts.append(f"{title}\n\n" + "\n".join(found) + "\n")
    parts.extend(of_enum(*each) for each in ENUMS)
    parts.append("#endif\n")
    return "\n".join(parts)


def main():
    text = header()
    names = re.findall(r"^#define (\w+) ", text, re.M)
    twice = {name for name in names if names.count(name) > 1}
    if twice:
        sys.exit(f"two constants have one name: {', '.join(sorted(twice))}")
    if sys.argv[1:] == ["--check"]:
        with open(HEADER, encoding="utf-8") as file:
            sys.exit(None if file.read() == text else f"{HEADER} is another: run {sys.argv[0]}")
    with open(HEADER, "w", encoding="utf-8") as file:
        file.write(text)


main()
