"""Whether the functions of the tools, of Python, of the build and of the checks have the shapes that they shall have.

    checks/kit/shapes.py FILE..

A function has at most 40 lines and seven parameters, besides its object; one assignment sets at most five fields of an object;
no result is None, a text or a number. No class of a package has the name of another one there, and no module imports what it doesn't
name.
"""
import ast
import os
import re
import sys

LINES, PARAMETERS, FIELDS = 40, 7, 5
TEXT = re.compile(r"[A-Za-z_]\w*")
NUMBERS, TEXTS = {"int", "float"}, {"str", "bytes"}


def parameters(function):
    """The names of the parameters, without that of the object."""
    given = function.args
    every = [*given.posonlyargs, *given.args, *given.kwonlyargs, given.vararg, given.kwarg]
    return [it.arg for it in every if it and it.arg not in ("self", "cls")]


def kinds(annotation):
    """The words of an annotation that is a choice between several types, as in Optional and Union."""
    if isinstance(annotation, ast.Constant) and isinstance(annotation.value, str):
        return kinds(ast.parse(annotation.value, mode="eval").body)
    if isinstance(annotation, ast.Subscript) and ast.unparse(annotation.value) in ("Optional", "Union"):
        found = kinds(annotation.slice)
        return found | {"None"} if ast.unparse(annotation.value) == "Optional" else found
    if isinstance(annotation, ast.BinOp):
        return kinds(annotation.left) | kinds(annotation.right)
    if isinstance(annotation, ast.Tuple):
        return set().union(*map(kinds, annotation.elts))
    return {ast.unparse(annotation)} if annotation else set()


def of_function(function):
    """What is wrong with a function."""
    lines, names, words = function.end_lineno - function.lineno + 1, parameters(function), kinds(function.returns)
    if lines > LINES:
        yield f"{lines} lines"
    if len(names) > PARAMETERS:
        yield f"{len(names)} parameters"
    if "None" in words and words & NUMBERS and words & TEXTS:
        yield f"the result {ast.unparse(function.returns)}"


def of_assignment(it):
    """What is wrong with an assignment."""
    targets = [part for target in it.targets for part in getattr(target, "elts", [target])]
    fields = sum(isinstance(part, ast.Attribute) for part in targets)
    if fields > FIELDS:
        yield f"sets {fields} fields at once"


def tree_of(name):
    """The syntax of a file; nothing if it isn't of Python."""
    with open(name, encoding="utf-8") as file:
        text = file.read()
    return ast.parse(text if name.endswith(".py") or "python3" in text.partition("\n")[0] else "")


def unused(tree):
    """What a file imports, and doesn't name: neither as it stands nor in a text, as a type may be; each with its line."""
    named = {part for it in ast.walk(tree) for part in (getattr(it, "id", ""), *TEXT.findall(str(getattr(it, "value", ""))))}
    for it in ast.walk(tree):
        if isinstance(it, (ast.Import, ast.ImportFrom)) and getattr(it, "module", "") != "__future__":
            names = [(one.asname or one.name).split(".")[0] for one in it.names]
            yield from (f"{it.lineno}: {one} is imported and not used" for one in names if one not in named)


def faults(name, tree):
    """What is wrong in a file."""
    if os.path.basename(name) != "__init__.py":
        yield from (f"{name}:{it}" for it in unused(tree))
    for it in ast.walk(tree):
        found = of_function(it) if isinstance(it, (ast.FunctionDef, ast.AsyncFunctionDef)) else ()
        found = of_assignment(it) if isinstance(it, ast.Assign) else found
        yield from (f"{name}:{it.lineno}: {getattr(it, 'name', 'an assignment')}: {why}" for why in found)


def twins(trees):
    """The classes of a package that have the name of another one there; a command is none of a package."""
    known = {}
    for name, tree in trees.items():
        for it in ast.walk(tree):
            if isinstance(it, ast.ClassDef) and name.endswith(".py"):
                here = f"{name}:{it.lineno}"
                first = known.setdefault((os.path.dirname(name), it.name), here)
                if first != here:
                    yield f"{here}: {it.name}: {first} has this name"


every = {name: tree_of(name) for name in sys.argv[1:]}
wrong = [*(it for name, tree in every.items() for it in faults(name, tree)), *twins(every)]
print(*wrong, sep="\n", end="\n" if wrong else "")
sys.exit(bool(wrong))
