#!/usr/bin/env python3
"""Writes the version that the file VERSION at the top has wherever else the repository and its packages
have it. With --check it writes nothing, and fails where one is another, or where CHANGELOG.md has no
dated title of it.
"""
import os
import re
import sys

TOP = os.path.dirname(os.path.dirname(os.path.abspath(__file__)))
HOME = "VERSION"
CHANGES = "CHANGELOG.md"
HEADER = "crates/mysql_wire_c/include/mysql_wire.h"
NUMBER = r"\d+\.\d+\.\d+"


def read(path):
    with open(os.path.join(TOP, path), encoding="utf-8") as file:
        return file.read()


def places(version):
    """Of each file: what stands in front of a version, the version there, and what follows."""
    major, minor, patch = map(int, version.split("."))
    series, number = f"{major}.{minor}", str(10000 * major + 100 * minor + patch)
    yield HEADER, r'^#define MYSQL_WIRE_VERSION "', version, NUMBER, '"$'
    yield HEADER, r"^#define MYSQL_WIRE_VERSION_MAJOR ", str(major), r"\d+", "$"
    yield HEADER, r"^#define MYSQL_WIRE_VERSION_MINOR ", str(minor), r"\d+", "$"
    yield HEADER, r"^#define MYSQL_WIRE_VERSION_PATCH ", str(patch), r"\d+", "$"
    library = "crates/mysql_wire_c/src/lib.rt"
    yield library, r"^// ", version, NUMBER, ": 10000 times"
    yield library, r"^const VERSION: u32 = ", number, r"\d+", ";"
    yield library, r"fn mysql_wire_version\(\) -> u32\n    ensures \{ result ≡ ", number, r"\d+", " "
    for name in ("bindings/rust/Cargo.toml", "bindings/rust/mysql-wire-bytes/Cargo.toml"):
        yield name, r'^version = "', version, NUMBER, '"$'
    for name in ("mysql-wire", "mysql-wire-bytes"):
        manifest = f"bindings/rust/{name}/Cargo.toml"
        yield manifest, r'^mysql-wire(?:-sys)? = \{ path = "[^"]*", version = "', version, NUMBER, '"'
    for lock in ("bindings/rust/Cargo.lock", "examples/proxy/Cargo.lock"):
        yield lock, r'^name = "mysql-wire(?:-sys)?"\nversion = "', version, NUMBER, '"$'
    yield "bindings/python/pyproject.toml", r'^version = "', version, NUMBER, '"$'
    yield "bindings/python/mysql_wire/__init__.py", r'^__version__ = "', version, NUMBER, '"$'
    for page in ("mysql_wire.3", "mysql_wire_dump.1", "mysql_wire_tool.1"):
        yield f"bindings/c/{page}", r'"mysql_wire ', version, NUMBER, '"'
    yield "bindings/c/release.md", r"^# mysql_wire ", version, NUMBER, " "
    yield "bindings/c/INSTALL.md", r"MYSQL_WIRE_", series, r"\d+\.\d+", "`"
    for page in ("bindings/c/README.md", "bindings/rust/README.md"):
        yield page, r"mysql_wire-", version, NUMBER, "-linux"
    yield "bindings/c/README.md", r"find_package\(mysql_wire ", series, r"\d+\.\d+", " "


def main():
    checks = sys.argv[1:] == ["--check"]
    version = read(HOME).strip()
    if not re.fullmatch(NUMBER, version):
        sys.exit(f"{HOME} has {version!r}, which is no version")
    wrong = []
    if not re.search(rf"^## {re.escape(version)} \(\d{{4}}-\d\d-\d\d\)$", read(CHANGES), re.M):
        wrong.append(f"{CHANGES} has no dated title of {version}")
    for path, front, wanted, form, back in places(version):
        text = read(path)
        found = re.findall(f"{front}({form})(?={back})", text, re.M)
        if not found:
            wrong.append(f"{path} has no version after {front!r}")
        elif checks and set(found) != {wanted}:
            wrong.append(f"{path} has {', '.join(sorted(set(found)))} in place of {wanted}")
        elif not checks:
            text = re.sub(f"({front}){form}(?={back})", rf"\g<1>{wanted}", text, flags=re.M)
            with open(os.path.join(TOP, path), "w", encoding="utf-8") as file:
                file.write(text)
    sys.exit("\n".join(wrong) or None)


main()
