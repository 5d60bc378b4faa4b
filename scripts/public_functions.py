#!/usr/bin/env python3
"""Prints each public function of the sources that are named, by its kind. What counts as one,
scripts/memory_lists.sh says.

    within NAME         an allocator is within its reach: its signature, its body, or the head of
                        its impl or trait names one, or a type that owns memory
    global NAME: CALL   it names `Global`, and its body is this one call; a private one too
    none NAME           it names no allocator and no owner of memory, or its body is empty
    twice NAME          two functions have this name
    unread FILE: LINE   a line with a function that isn't understood

It reads the layout that `rt fmt` gives: an item begins in the first column, a method in the fifth.
"""
import re
import sys

OWNERS = set(
    "Allocator Global AllocGlobal HostRuntime Runtime Memory alloc Vec VecDeque String Box Rc Arc"
    " Bytes BytesMut BufMut PacketDst CowSlice CowStr vec format".split()
)
HEAD = re.compile(r"(unsafe )?impl\b|(pub(\(\w+\))? )?(unsafe )?trait ")
FUNCTION = re.compile(
    r"(?P<indent>|    )(?P<pub>pub )?(pub\(\w+\) )?((const|unsafe|final) )*fn (?P<name>\w+)"
)
TYPE = r"(pub(\(\w+\))? )?(struct|enum|type) (?P<name>\w+)"
DECLARATION = re.compile(TYPE)
WHOLE_DECLARATION = re.compile(f"^{TYPE}.*?(;$|^}}|{{}}$)", re.M | re.S)


def words(text):
    return set(re.findall(r"\w+", text))


def lines_of(path):
    with open(path) as file:
        return [re.sub(r"(^| +)//.*", "", line.rstrip("\n")) for line in file]


def item(lines, at):
    """The text of an item, up to its end or to the brace that opens it."""
    text = []
    for line in lines[at:]:
        text.append(line)
        if re.search(r"[;{}]$", line):
            break
    return " ".join(text)


def bracketed(text):
    """What stands in angle brackets at the front of a text, and the rest."""
    depth = 0
    for at, char in enumerate(text):
        depth += (char == "<") - (char == ">")
        if depth == 0:
            at += char == ">"
            return text[:at], text[at:]
    return "", text


class Sources:
    """What one file has to know of the others."""

    def __init__(self, files):
        self.traits, self.hidden_traits = set(), set()
        self.exported, self.public_modules = set(), set()
        declarations = {}
        for path, lines in files.items():
            text = "\n".join(lines)
            for used in re.findall(r"^ *pub use ([^;]*);", text, re.M):
                self.exported |= words(used)
            folder = re.sub(r"(/lib)?\.rt$", "", path)
            for name in re.findall(r"^pub mod (\w+);", text, re.M):
                self.public_modules.add(f"{folder}/{name}")
            self.traits |= set(re.findall(r"^pub (?:unsafe )?trait (\w+)", text, re.M))
            hidden = re.findall(r"^(?:pub\(\w+\) )?(?:unsafe )?trait (\w+)", text, re.M)
            self.hidden_traits |= set(hidden)
            for found in WHOLE_DECLARATION.finditer(text):
                declarations[found["name"]] = words(found[0])
        self.owners, more = set(OWNERS), True
        while more:
            more = {name for name, said in declarations.items() if said & self.owners}
            more -= self.owners
            self.owners |= more

    def is_owner(self, text):
        return bool(words(text) & self.owners)

    def can_name(self, path):
        """Whether each module above a file, and the file itself, is public."""
        module = path.removesuffix(".rt")
        while not module.endswith(("/src", "/lib")):
            if module not in self.public_modules:
                return False
            module = module.rpartition("/")[0]
        return True


class Head:
    """The head of an impl or a trait, and what its methods are named by."""

    def __init__(self, text, sources):
        self.text = text
        self.is_trait = "trait " in text[:17]
        self.is_of_ours, self.given = self.is_trait and text.startswith("pub "), ""
        name = re.sub(r"^(pub(\(\w+\))? )?(unsafe )?(impl|trait) ?", "", text)
        self.is_foreign = False
        if not self.is_trait:
            name = bracketed(name)[1].strip()
            trait, is_for, for_type = name.partition(" for ")
            trait_name = re.match(r"\w*", trait)[0]
            if is_for:
                name = for_type
                self.is_of_ours = trait_name in sources.traits
                is_hidden = trait_name in sources.hidden_traits
                self.is_foreign = not self.is_of_ours and not is_hidden
            if self.is_of_ours:
                name = trait_name
            if self.is_foreign and trait != trait_name:
                self.given = "(" + trait[len(trait_name) + 1 : -1] + ")"
        self.name = re.match(r"\w*", name)[0]


class Finder:
    def __init__(self, files):
        self.files, self.sources = files, Sources(files)
        self.kinds, self.lines = {}, []

    def keep(self, kind, name, is_of_trait):
        """A method of a trait is within reach of an allocator where it is in one of its impls."""
        if name in self.kinds and not is_of_trait:
            self.lines.append(f"twice {name}")
        if self.kinds.get(name) != "within":
            self.kinds[name] = kind

    def function(self, path, head, found, signature, body):
        """Keeps a function. The body is None where there is none."""
        name = found["name"]
        if head:
            full = f"{head.name}::{name}{head.given}"
            is_public = bool(found["pub"]) or head.is_of_ours or head.is_foreign
        else:
            full = name
            can_name = self.sources.can_name(path) or name in self.sources.exported
            is_public = bool(found["pub"]) and can_name
        text = f"{head.text if head else ''} {signature} {body or ''}"
        if "Global" in words(text) and body != "":
            call = re.fullmatch(r"(self\.)?(\w+)(::<.*>)?\(.*\balloc\b.*\)", body or "")
            passes = "no single call" if not call or ";" in body else call[2]
            if call and call[1]:
                passes = f"{head.name}::{passes}"
            self.lines.append(f"global {full}: {passes}")
        elif is_public:
            is_within = body != "" and self.sources.is_owner(text)
            self.keep("within" if is_within else "none", full, bool(head) and head.is_of_ours)

    def copy(self, derive, declaration):
        """A copy that a derive makes: it may take memory where it copies a parameter's values. A
        parameter that another one gives, as `P` in `T: IntRepr<Primitive = P>`, is a number."""
        found = DECLARATION.match(declaration)
        if not found or not declaration.startswith("pub "):
            return
        parameters = re.sub(r"const \w+|'\w+", "", bracketed(declaration[found.end() :])[0])
        if "derive_where" in derive:
            copied = set(re.findall(r"\w+", derive.partition(";")[2]))
        else:
            copied = set(re.findall(r"\b[A-Z]\w*", parameters))
        copied -= set(re.findall(r" = (\w+)>", parameters))
        is_within = copied or self.sources.is_owner(declaration)
        self.keep("within" if is_within else "none", found["name"] + "::clone", False)

    def read(self, path):
        lines, head, derive, at = self.files[path], None, None, 0
        while at < len(lines):
            line = lines[at]
            if line.startswith("}"):
                head = None
            elif line.startswith("#[derive") and "Clone" in line:
                derive = line
            elif DECLARATION.match(line) and derive:
                text = item(lines, at)
                body = "" if text.endswith(";") else " ".join(lines[at : lines.index("}", at)])
                self.copy(derive, f"{text} {body}")
                derive = None
            elif HEAD.match(line):
                text = item(lines, at)
                head = None if text.endswith("{}") else Head(text, self.sources)
                while not re.search(r"[{}]$", lines[at]):
                    at += 1
            elif found := FUNCTION.match(line):
                at = self.read_function(path, head, found, at)
            elif re.search(r"(^| )fn [a-z]", line):
                self.lines.append(f"unread {path}: {at + 1}")
            at += 1

    def read_function(self, path, head, found, at):
        """Reads a function whose first line this is, and answers where its last one is."""
        lines, indent = self.files[path], found["indent"]
        signature, in_clauses = [], False
        while True:
            line = lines[at]
            in_clauses |= bool(re.match(r" *(requires|ensures)[ {]", line))
            if not in_clauses:
                signature.append(line)
            if line.endswith(";"):
                body = None
            elif line == indent + "{}" or not in_clauses and line.endswith("{}"):
                body = ""
            elif line == indent + "{" or not in_clauses and line.endswith("{"):
                end = lines.index(indent + "}", at)
                body = " ".join(lines[at + 1 : end]).strip()
                at = end
            else:
                at += 1
                continue
            self.function(path, head, found, " ".join(signature), body)
            return at


def main():
    finder = Finder({path: lines_of(path) for path in sys.argv[1:]})
    for path in finder.files:
        finder.read(path)
    for line in finder.lines + [f"{kind} {name}" for name, kind in finder.kinds.items()]:
        print(line)


main()
