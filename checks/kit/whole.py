"""Runs olr-keep as it was proved and built, as a whole program, with allocations, reads or writes that fail.

PROGRAM is the program, or another one that the variable OLR_KEEP names.
"""
import functools
import io
import os
import shutil
import subprocess
import sys
import tempfile
from typing import NamedTuple

TOP = os.path.dirname(os.path.dirname(os.path.dirname(os.path.realpath(__file__))))
# What .gitignore lists, and the folder of git, which is a file in a worktree.
LEFT_OUT = {"out", "__pycache__", ".git"}
sys.path.insert(0, f"{TOP}/python")
from olr_keep_tools.program import ProgramFailed, program_name  # noqa: E402
from olr_keep_tools.replies import read_reply  # noqa: E402


class Ended(NamedTuple):
    """How a run ended, and its counts of allocations, reads, writes and refused calls, where they were taken."""

    status: int
    output: str
    errors: str
    allocations: int = 0
    reads: int = 0
    writes: int = 0
    refused: int = 0


@functools.lru_cache(maxsize=None)
def program():
    """The program. Without one the check fails."""
    try:
        return program_name()
    except ProgramFailed as why:
        sys.exit(f"{os.path.basename(sys.argv[0])}: {why}")


def __getattr__(name):
    """PROGRAM is looked for when a check names it, since some need none."""
    if name != "PROGRAM":
        raise AttributeError(name)
    return program()


def compile_library(name, folder):
    """Compiles a file of checks/ to a library that can be loaded before the program. Returns the library's name."""
    library = f"{folder}/{name[:-2]}.so"
    compiler = f"{os.path.dirname(os.path.dirname(os.path.realpath(shutil.which('rt') or '/')))}/toolchain/bin/clang"
    command = [compiler, "-fuse-ld=lld"] if os.path.exists(compiler) else [os.environ.get("CC", "cc")]
    if not shutil.which(command[0]):
        print(f"skipped: {os.path.basename(sys.argv[0])}: there is no C compiler (Debian: gcc)")
        sys.exit(77)
    command += ["-O1", "-fno-builtin", "-shared", "-fPIC", "-nostdlib", "-o", library, f"{TOP}/checks/{name}"]
    subprocess.run(command, check=True)
    return library


class Refuser:
    """Runs the program with `refuse.c` loaded before it."""

    def __init__(self):
        self.folder = tempfile.mkdtemp(prefix="olr-keep-")
        self.library, self.counts = compile_library("refuse.c", self.folder), f"{self.folder}/counts"

    def __enter__(self):
        return self

    def __exit__(self, *_):
        shutil.rmtree(self.folder)

    def run(self, text, refuse="", slow=False, command=None):
        """Runs the program, or another command, on this input, with this call refused, such as `allocation 7`."""
        more = {"LD_PRELOAD": self.library, "COUNTS": self.counts, "REFUSE": refuse, **({"SLOW": "1"} if slow else {})}
        with open(self.counts, "w", encoding="utf-8"):
            pass
        ended = run(text, command, more)
        with open(self.counts, encoding="utf-8") as counts:
            names = ("allocations", "reads", "writes", "refused")
            return ended._replace(**dict(zip(names, map(int, counts.read().split()))))


def run(text, command=None, env=None):
    """Runs the program, or another command, on this input."""
    ended = subprocess.run(command or (program(),), input=text.encode(), capture_output=True, env=env, timeout=600)
    return Ended(ended.returncode, ended.stdout.decode(), ended.stderr.decode())


def replies_of(output):
    """The texts of the complete replies in what was written, and the rest after the last of them."""
    stream, texts, at = io.StringIO(output, newline="\n"), [], 0
    try:
        while reply := read_reply(stream):
            texts.append(reply.text())
            at = stream.tell()
    except (EOFError, ValueError):
        pass
    return texts, output[at:]


def tracked():
    """The names of the files of the repository, those among them that are not committed yet."""
    for folder, folders, files in os.walk(TOP):
        folders[:] = [it for it in folders if it not in LEFT_OUT]
        yield from (os.path.relpath(f"{folder}/{it}", TOP) for it in files if it not in LEFT_OUT)


def text_of(name):
    """The text of a file of the repository."""
    with open(os.path.join(TOP, name), encoding="utf-8") as file:
        return file.read()
