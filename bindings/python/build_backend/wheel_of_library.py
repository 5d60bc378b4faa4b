"""Builds a wheel of the module and of the shared library, and an archive of the module's source, with
nothing but the standard library. The library is the one that MYSQL_WIRE_LIBRARY names, that of the
release in which this folder stands, or what `make -C bindings/c` left.
"""

import ast
import base64
import hashlib
import io
import os
import re
import tarfile
import zipfile
from pathlib import Path

HERE = Path(__file__).resolve().parent.parent
NAME, TAG = "mysql_wire", "py3-none-manylinux2014_x86_64"
WHEEL = f"""\
Wheel-Version: 1.0
Generator: wheel_of_library
Root-Is-Purelib: false
Tag: {TAG}
"""
MISSING = """\
the shared library of mysql_wire {series} is missing. Unpack its release for Linux on x86-64, and run
pip on its folder bindings/python, or name its lib/libmysql_wire.so.* in MYSQL_WIRE_LIBRARY. In the
repository `make -C bindings/c` makes it, for which Rattle's kit is needed."""


def project(key):
    """What pyproject.toml says of the project: a text, or a list of texts."""
    text = (HERE / "pyproject.toml").read_text(encoding="utf-8")
    return ast.literal_eval(re.search(rf"^{key} = (\[\n.*?^\]|[^\n]*)", text, re.M | re.S)[1])


VERSION = project("version")
SERIES = VERSION.rpartition(".")[0]
INFO = f"{NAME}-{VERSION}.dist-info"


def metadata():
    """As PyPI reads it; the page is the description."""
    fields = [
        ("Metadata-Version", "2.1"),
        ("Name", "mysql-wire"),
        ("Version", VERSION),
        ("Summary", project("description")),
        ("License", "MIT"),
        ("License-File", "LICENSE"),
        ("Keywords", ",".join(project("keywords"))),
        *(("Classifier", each) for each in project("classifiers")),
        ("Requires-Python", project("requires-python")),
        ("Requires-External", f"libmysql_wire (=={SERIES}.*)"),
        ("Description-Content-Type", "text/markdown"),
    ]
    page = (HERE / "README.md").read_text(encoding="utf-8")
    return "".join(f"{name}: {value}\n" for name, value in fields) + f"\n{page}"


def library():
    """The shared library, of this version."""
    named = os.environ.get("MYSQL_WIRE_LIBRARY")
    folders = HERE.parent.parent / "lib", HERE.parent / "c" / "out"
    beside = [path for each in folders for path in sorted(each.glob("libmysql_wire.so.*.*.*"))]
    found = [Path(named)] if named else beside
    if not found or not found[0].is_file():
        raise RuntimeError(MISSING.format(series=SERIES))
    version = re.search(rb"@\(#\)mysql_wire (\d+\.\d+)\.", found[0].read_bytes())
    if not version or version[1].decode() != SERIES:
        raise RuntimeError(f"{found[0]} is no libmysql_wire of version {SERIES}")
    return found[0]


def changes():
    """What changed, from beside the module, or from the top of the release or of the repository."""
    found = [path for path in (HERE, HERE.parent.parent) if (path / "CHANGELOG.md").is_file()]
    return (found[0] / "CHANGELOG.md").read_bytes()


def sources():
    """The files of the module: their names, and their bytes."""
    for path in sorted((HERE / NAME).glob("*")):
        if path.suffix in (".py", ".typed"):
            yield f"{NAME}/{path.name}", path.read_bytes()


def contents():
    """The files of the wheel."""
    yield from sources()
    yield f"{NAME}/libmysql_wire.so.0", library().read_bytes()
    yield f"{INFO}/LICENSE", (HERE / "LICENSE").read_bytes()
    yield f"{INFO}/CHANGELOG.md", changes()
    yield f"{INFO}/METADATA", metadata().encode()
    yield f"{INFO}/WHEEL", WHEEL.encode()


def build_wheel(wheel_directory, config_settings=None, metadata_directory=None):
    file_name = f"{NAME}-{VERSION}-{TAG}.whl"
    record = ""
    with zipfile.ZipFile(Path(wheel_directory, file_name), "w", zipfile.ZIP_DEFLATED) as wheel:
        for name, data in contents():
            digest = base64.urlsafe_b64encode(hashlib.sha256(data).digest()).rstrip(b"=").decode()
            record += f"{name},sha256={digest},{len(data)}\n"
            wheel.writestr(name, data)
        wheel.writestr(f"{INFO}/RECORD", f"{record}{INFO}/RECORD,,\n")
    return file_name


def build_sdist(sdist_directory, config_settings=None):
    top = f"{NAME}-{VERSION}"
    files = {"PKG-INFO": metadata().encode(), "CHANGELOG.md": changes(), **dict(sources())}
    others = "pyproject.toml", "README.md", "LICENSE", "build_backend/*.py", "tests/*.py"
    for path in (path for each in others for path in sorted(HERE.glob(each))):
        files[path.relative_to(HERE).as_posix()] = path.read_bytes()
    with tarfile.open(Path(sdist_directory, f"{top}.tar.gz"), "w:gz") as archive:
        for name, data in files.items():
            entry = tarfile.TarInfo(f"{top}/{name}")
            entry.size, entry.mode = len(data), 0o644
            archive.addfile(entry, io.BytesIO(data))
    return f"{top}.tar.gz"
