#!/usr/bin/env python3
"""Tries wrong bodies in a copy of the repository, those of several functions by one check.

usage: scripts/wrong_bodies.py TOP COPY KEPT JOBS CRATE/NAME..

A body stands against its own function's contract alone, so that one check judges a wrong body of
each function that has one: such a body is refused where an error stands in its function, or in the
function's own proof file. One that stands in no function, or of which such a check shows no error,
is tried by a check of its own. The copy is made in the folder COPY of the repository TOP, of the
crates that are tried and of those below, whose libraries are built where they aren't; a check begins
with what one kept in TOP. Each crate is tried in a folder of its own, JOBS of them at once. It says
of each body what refuses it. What it said of a body it keeps in the folder KEPT, by a checksum of all
that it read, and says it again as long as nothing of that changed. The line before the last has the
sums by what refused the bodies;
the last line is 'N refused, M not'.
"""

import dataclasses
import hashlib
import os
import pathlib
import re
import shutil
import subprocess
import sys
import threading
from concurrent.futures import ThreadPoolExecutor

FUNCTION = re.compile(r"( *)(?:pub(?:\(\w+\))? )?(?:const )?(?:unsafe )?fn (\w+)")
ERROR = re.compile(
    r"(?:note: )?(?:\./)?((?:src|proofs|specs)/\S+?):(\d+):\d+: (?:error: |it is not proved )"
)
# An error of a proof file that names what an edit took away.
OF_NAMES = re.compile(r"has no field|is not in scope|has no `|was not admitted")
# At most so many bodies are tried by one check.
MOST = 40


@dataclasses.dataclass
class Body:
    """A wrong body: its name, and its changes, each a file with its old and its new text."""

    name: str
    changes: list
    edit: str

    @classmethod
    def read(cls, name, file):
        changes, path, old = [], None, None
        edit = file.read_text()
        for line in edit.splitlines():
            word, _, text = line.partition(":")
            text = text.removeprefix(" ")
            if word == "file":
                path = text.strip()
            elif word == "old":
                old = text
            elif word == "new":
                changes.append((path, old, text))
        return cls(name, changes, edit)

    def function(self, texts):
        """The one function that it changes: its file, name, first and last line; or nothing."""
        found = {enclosing(path, texts[path], old) for path, old, _ in self.changes}
        return found.pop() if len(found) == 1 else None


def enclosing(path, text, old):
    """The function in whose lines a text stands: its file, name, first and last line."""
    lines = text.split("\n")
    at = text[: text.index(old)].count("\n")
    for first in range(at, -1, -1):
        found = FUNCTION.match(lines[first])
        if found and path.startswith("src/"):
            last = next(
                (it for it in range(first, len(lines)) if lines[it] == found[1] + "}"), first
            )
            return (path, found[2], first + 1, last + 1) if at <= last else None
    return None


def changed(texts, bodies):
    """The texts with the changes of these bodies, or nothing where one can't be made."""
    made = dict(texts)
    for body in bodies:
        for path, old, new in body.changes:
            if made[path].count(old) != 1:
                return None
            made[path] = made[path].replace(old, new)
    return made


class Kept:
    """What was said of a crate's bodies, in a file for each, as long as nothing changes below."""

    def __init__(self, folder, top, version, crates):
        self.folder = folder
        sums = hashlib.sha256(version.encode())
        for crate in crates:
            place = top / "crates" / crate
            for part in ("src", "specs", "proofs"):
                for file in sorted(it for it in (place / part).rglob("*") if it.is_file()):
                    text = file.read_bytes()
                    sums.update(f"{crate}/{file.relative_to(place)} {len(text)}\n".encode() + text)
        self.below = sums.hexdigest()

    def place(self, body):
        return self.folder / hashlib.sha256((self.below + body.edit).encode()).hexdigest()

    def said(self, body):
        """What was said of a body, or nothing."""
        try:
            return self.place(body).read_text()
        except FileNotFoundError:
            return None

    def keep(self, body, why):
        whole = self.place(body)
        begun = whole.with_suffix(f".{os.getpid()}")
        begun.write_text(why)
        begun.rename(whole)


class Crate:
    """A crate in a folder of its own, with its wrong bodies."""

    def __init__(self, name, bodies, kept):
        self.name, self.bodies, self.kept, self.said = name, [], kept, []
        for body in bodies:
            why = kept.said(body)
            if why is None:
                self.bodies.append(body)
            else:
                self.tell(body, why)

    def make_room(self, top, copy, below):
        """Makes the folder that the crate is tried in."""
        name = self.name
        room = copy / "trials" / name
        self.folder = room / "crates" / name
        self.folder.parent.mkdir(parents=True)
        subprocess.run(["git", "init", "-q", "."], cwd=room, check=True)
        shutil.copy(top / "HANDLES", room)
        list_crates(top, room, (*below, name))
        for crate in below:
            linked = ["cp", "-al", f"{copy}/crates/{crate}", self.folder.parent]
            subprocess.run(linked, check=True)
        shutil.copytree(top / "crates" / name, self.folder, copy_function=link_proofs)
        shutil.rmtree(self.folder / "must-fail", ignore_errors=True)
        paths = {path for body in self.bodies for path, _, _ in body.changes}
        self.texts = {path: (self.folder / path).read_text() for path in paths}

    def run_check(self):
        """Checks the crate as it stands in its folder, and gives what that says."""
        ran = subprocess.run(
            ["rt", "check", "--jobs", "1"], cwd=self.folder, stdin=subprocess.DEVNULL,
            stdout=subprocess.PIPE, stderr=subprocess.STDOUT, text=True, errors="replace",
        )
        return ran.stdout.splitlines()

    def check(self, bodies):
        """What a check says with these bodies: its lines, or nothing where it does not compile."""
        texts = changed(self.texts, bodies)
        if texts is None:
            return None
        for path, text in texts.items():
            (self.folder / path).write_text(text)
        lines = self.run_check()
        judged = any(it.startswith(("logic=not-proved", "logic=proved")) for it in lines)
        return lines if judged else None

    def tell(self, body, why):
        self.said.append(why)
        print(f"{self.name}/{body.name}: {why}", flush=True)

    def say(self, body, why):
        """Says what came of a body, and keeps it (a check that was cut short says 'NOT TRIED')."""
        if not why.startswith("NOT TRIED"):
            self.kept.keep(body, why)
        self.tell(body, why)

    def judge(self, body, function, lines):
        """Whether the lines have an error of the body's function."""
        path, name, first, last = function
        module = path.removeprefix("src/").removesuffix(".rt").split("/")
        proofs = [] if module in (["lib"], ["main"]) else module
        errors = []
        for line in lines:
            found = ERROR.match(line)
            if not found:
                continue
            parts = found[1].split("/")
            in_source = found[1] == path and first <= int(found[2]) <= last
            of_proof = parts[0] == "proofs" and parts[-2] == name
            if in_source or of_proof and parts[1 : 1 + len(proofs)] == proofs:
                errors.append(line)
        return self.is_refused(body, errors)

    def is_refused(self, body, errors):
        """Whether there are errors of the body; says so, with the first that is of a clause."""
        strong = [it for it in errors if not ("proofs/" in it and OF_NAMES.search(it))]
        if strong:
            self.say(body, f"refused: {strong[0][:200]}")
        elif errors:
            self.say(body, f"refused, only by names: {errors[0][:200]}")
        return bool(errors)

    def try_alone(self, body):
        lines = self.check([body])
        if lines is None:
            self.say(body, "NOT TRIED: it can't be applied, or does not compile")
        elif not self.is_refused(body, [it for it in lines if ERROR.match(it)]):
            is_proved = any(it.startswith("logic=proved") for it in lines)
            self.say(body, "NOT REFUSED" if is_proved else "refused, by no error that is shown")

    def try_together(self, bodies, functions):
        """Tries bodies of different functions, and gives those that stay to be tried alone."""
        lines = self.check(bodies)
        if lines is None and len(bodies) > 1:
            half = len(bodies) // 2
            return [
                *self.try_together(bodies[:half], functions),
                *self.try_together(bodies[half:], functions),
            ]
        return [it for it in bodies if not lines or not self.judge(it, functions[it.name], lines)]

    def try_all(self):
        # The crate as it is goes first: of that, a check in another copy may have kept all.
        self.run_check()
        functions = {it.name: it.function(self.texts) for it in self.bodies}
        alone = [it for it in self.bodies if not functions[it.name]]
        left = [it for it in self.bodies if functions[it.name]]
        while left:
            batch, taken = [], set()
            for body in left:
                function = functions[body.name]
                if function not in taken and len(batch) < MOST and changed(self.texts, [*batch, body]):
                    batch.append(body)
                    taken.add(function)
            # (one that can't be applied is tried alone, which says so)
            batch = batch or left[:1]
            alone += self.try_together(batch, functions)
            left = [it for it in left if it not in batch]
        for body in alone:
            self.try_alone(body)


def libraries_below(copy):
    """The libraries of the repository that each crate stands on, lowest first."""
    below = {}
    for line in (copy / "crates.txt").read_text().splitlines():
        name, found, words = line.partition(":")
        if found and not line.startswith("#"):
            own = [it for it in words.split() if it in below]
            every = [deep for it in own for deep in (*below[it], it)]
            below[name.split()[0]] = list(dict.fromkeys(every))
    return below


def link_proofs(one, other):
    """Copies a file; one of proofs, which a check replaces and never changes, by a link."""
    if one.endswith(".oantt"):
        try:
            return os.link(one, other)
        except OSError:
            pass
    return shutil.copy2(one, other)


def list_crates(top, folder, names):
    """Writes the crates.txt of a folder that has these crates."""
    lines = (top / "crates.txt").read_text().splitlines()
    kept = [it for it in lines if re.split(r"[ :]", it)[0] in names]
    (folder / "crates.txt").write_text("\n".join(kept) + "\n")


class Libraries:
    """The copy's libraries, each copied and built when the first crate above it is tried."""

    def __init__(self, top, copy):
        self.top, self.copy, self.built, self.lock = top, copy, set(), threading.Lock()

    def build(self, names):
        for name in names:
            with self.lock:
                if name not in self.built:
                    folder = self.copy / "crates" / name
                    shutil.copytree(self.top / "crates" / name, folder, copy_function=link_proofs)
                    self.built.add(name)
                    list_crates(self.top, self.copy, self.built)
                    subprocess.run(["rt", "lib"], cwd=folder, stdout=subprocess.DEVNULL, check=True)


def main(top, copy, folder, jobs, *words):
    top, copy, folder = pathlib.Path(top), pathlib.Path(copy).resolve(), pathlib.Path(folder)
    folder.mkdir(parents=True, exist_ok=True)
    ran = subprocess.run(["rt", "version"], stdout=subprocess.PIPE, text=True, check=True)
    below, bodies, libraries = libraries_below(top), {}, Libraries(top, copy)
    shutil.copy(top / "HANDLES", copy)
    for word in words:
        crate, _, name = word.partition("/")
        file = top / "wrong-bodies" / crate / f"{name}.edit"
        bodies.setdefault(crate, []).append(Body.read(name, file))

    def try_crate(name):
        kept = Kept(folder, top, ran.stdout, (*below[name], name))
        crate = Crate(name, bodies[name], kept)
        if crate.bodies:
            libraries.build(below[name])
            with libraries.lock:
                crate.make_room(top, copy, below[name])
            crate.try_all()
        return crate.said

    with ThreadPoolExecutor(int(jobs)) as pool:
        # (lowest first, so that a crate's libraries are there when its turn comes)
        names = [it for it in below if it in bodies]
        said = [it for told in pool.map(try_crate, names) for it in told]
    refused = sum(why.startswith("refused") for why in said)
    by_names = sum(why.startswith("refused, only by names") for why in said)
    unseen = sum(why.startswith("refused, by no error") for why in said)
    print(
        f"{refused - by_names - unseen} refused by a clause, {by_names} only since a proof file "
        f"names what went away, {unseen} by no error that is shown, {len(words) - refused} not"
    )
    print(f"{refused} refused, {len(words) - refused} not")
    return refused != len(words)


if __name__ == "__main__":
    sys.exit(main(*sys.argv[1:]))
