"""The functions of the crates, and which a function may call, by their names.

A function is called if its name occurs in the body of another one. The types of values are not known here, so a call of a method counts
for every method of its name. A macro counts as a function.
"""
import collections
import glob
import os
import re

from .whole import TOP

LEFT_OUT = re.compile(r'//[^\n]*|/\*.*?\*/|b?"(?:\\.|[^"\\])*"|b?\'(?:\\.[^\']*|[^\'\\])\'|^ *(?:pub )?ghost use [^;]*;', re.S | re.M)
TOKEN = re.compile(r"'?[A-Za-z_][A-Za-z0-9_]*|::|->|=>|[^\sA-Za-z_]")
NAME = re.compile(r"[A-Za-z_]\w*")
CLOSING = {"(": ")", "[": "]", "{": "}"}
CLAUSE = {"requires", "ensures", "ghost", "decreases"}

Function = collections.namedtuple("Function", "file line owner trait name method exported body")


def tokens_of(file):
    """The tokens of a file, each with its line number, without comments, strings and the definitions that it uses."""
    with open(file, encoding="utf-8") as it:
        text = it.read()
    text = LEFT_OUT.sub(lambda it: "\n" * it[0].count("\n") + (" 0 " if it[0][0] in "b\"'" else ""), text)
    line, at, found = 1, 0, []
    for it in TOKEN.finditer(text):
        line += text.count("\n", at, it.start())
        at = it.start()
        found.append((it[0], line))
    return found


def end_of(tokens, at):
    """The position after the bracket that closes the one at `at`."""
    depth = 0
    for k in range(at, len(tokens)):
        depth += (tokens[k][0] in CLOSING) - (tokens[k][0] in CLOSING.values())
        if not depth:
            return k + 1
    return len(tokens)


def body_at(tokens, at):
    """The positions where the body of the function whose name is at `at` begins and ends; equal if it has none."""
    words = []
    while tokens[at][0] != ";":
        if tokens[at][0] == "{":
            if CLAUSE.isdisjoint(words):
                return at, end_of(tokens, at)
            words, at = [], end_of(tokens, at)
        elif tokens[at][0] in CLOSING:
            at = end_of(tokens, at)
        else:
            words.append(tokens[at][0])
            at += 1
    return at, at


def owner_of(words):
    """The type and the trait of the tokens between `impl` or `trait` and the brace."""
    depth, plain = 0, []
    for it in words:
        depth += (it == "<") - (it == ">")
        if not depth and NAME.fullmatch(it):
            plain.append(it)
    plain = plain[: plain.index("where")] if "where" in plain else plain
    if "for" in plain:
        cut = plain.index("for")
        return plain[-1], plain[cut - 1]
    return plain[-1] if plain else None, None


def imported(tokens):
    """The functions that the `use` lines of a file may name, each with the module or crate in front of it."""
    found = set()
    for at, (word, _) in enumerate(tokens):
        if word == "use":
            path = [""]
            for it, _ in tokens[at + 1 : at + 200]:
                if it == ";":
                    break
                if it == "{":
                    path.append(path[-1])
                elif it == "}":
                    path.pop()
                elif NAME.fullmatch(it):
                    found.add((path[-1], it))
                    last = it
                elif it == "::":
                    path[-1] = last
                elif it == ",":
                    path[-1] = path[-2] if len(path) > 1 else ""
    return found


def functions(file, tokens):
    """The functions of a file, and its macros."""
    at, owners = 0, []
    while at < len(tokens):
        word, line = tokens[at]
        owners = [it for it in owners if at < it[0]]
        if word in ("impl", "trait") and (at == 0 or tokens[at - 1][0] in ("}", "{", ";", "]", "pub", ")", "unsafe")):
            brace = next(k for k in range(at, len(tokens)) if tokens[k][0] == "{")
            name, trait = owner_of([it for it, _ in tokens[at + 1 : brace]])
            name = tokens[at + 1][0] if word == "trait" else name
            owners.append((end_of(tokens, brace), name, trait))
            at = brace + 1
        elif word == "fn" and NAME.fullmatch(tokens[at + 1][0]):
            begin, end = body_at(tokens, at + 2)
            head = [it for it, _ in tokens[at + 2 : begin]]
            opened = head.index("(")
            owner = owners[-1][1:] if owners else (None, None)
            method = "self" in head[opened : opened + 6] and owner[0] is not None
            exported = at > 1 and tokens[at - 2][0] == "extern"
            yield Function(file, line, *owner, tokens[at + 1][0], method, exported, [it for it, _ in tokens[begin:end]])
            at = max(end, at + 1)
        elif word == "macro_rules" and tokens[at + 1][0] == "!":
            end = end_of(tokens, at + 3)
            yield Function(file, line, None, None, tokens[at + 2][0], False, False, [it for it, _ in tokens[at + 3 : end]])
            at = end
        else:
            at += 1


def named(body, owner):
    """What a body may call: each name, with what is in front of it: `.`, the name before `::`, or nothing."""
    for k, it in enumerate(body):
        if not NAME.fullmatch(it):
            continue
        before = body[k - 1] if k else ""
        if before == ".":
            yield ".", it
        elif before == "::":
            path = body[k - 2] if NAME.fullmatch(body[k - 2]) else ""
            yield owner if path == "Self" else path, it
        elif before != "fn" and (body[k + 1 : k + 2] or [""])[0] != ":":
            yield "", it


def crate_of(function):
    """The crate of a function."""
    return os.path.relpath(function.file, f"{TOP}/crates").split("/")[0]


class Crates:
    """The functions of some crates by name, and what each file imports."""

    def __init__(self, names):
        self.imports, self.functions, self.by_name = {}, [], collections.defaultdict(list)
        for crate in names:
            for file in sorted(glob.glob(f"{TOP}/crates/{crate}/src/**/*.rt", recursive=True)):
                tokens = tokens_of(file)
                self.imports[file] = imported(tokens)
                self.functions.extend(functions(file, tokens))
        for it in self.functions:
            self.by_name[it.name].append(it)
        self.types = {it.owner for it in self.functions if it.owner}

    def is_from(self, function, before):
        """Whether a function that is not a method belongs to this module or crate."""
        source, module = function.file.rsplit("/", 1)[0], os.path.basename(function.file)[:-3]
        reexported = module == "lib" or (module, function.name) in self.imports.get(f"{source}/lib.rt", ())
        return before == module or before == crate_of(function) and reexported

    def is_called(self, it, before, caller):
        """Whether a name in the body of a function, with what is in front of it, may be a call of another function."""
        if before == ".":
            return it.method
        if it.owner:
            return bool(before) and (before in (it.owner, it.trait) or before not in self.types and before[0].isupper())
        if before:
            return self.is_from(it, before)
        places = self.imports[caller.file]
        return it.file == caller.file or any(name == it.name and self.is_from(it, place) for place, name in places)

    def is_shown(self, it, shown):
        """Whether a page names a function: after its type or module, as a method, or as a function that a crate exports."""
        lib, module = self.imports.get(f"{os.path.dirname(it.file)}/lib.rt", ()), os.path.basename(it.file)[:-3]
        bare = it.method or it.owner is None and (module, it.name) in lib
        qualified = (it.owner or module, it.name) in shown
        return qualified or bare and not {("", it.name), (".", it.name)}.isdisjoint(shown)

    def calls(self, caller):
        """The functions that the body of one may call."""
        for before, name in set(named(caller.body, caller.owner)):
            yield from (it for it in self.by_name[name] if self.is_called(it, before, caller))
