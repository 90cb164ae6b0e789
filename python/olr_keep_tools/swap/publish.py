"""The files of tools/swap --write: the new log, the reply that consumers have to take, and the way back."""
import os
from typing import Iterable, Iterator, Mapping

from ..files import new_folder
from ..records import Margin, Path, State


def path_record(name: str, path: Path) -> str:
    """The record of a path."""
    return ",".join(map(str, ("path", name, path.positive, path.negative, *path.lines)))


def dump(state: State) -> Iterator[str]:
    """The records of a map with its paths."""
    if state.margin != Margin():
        yield state.margin.record()
    yield from (f"node,{it},{text}" for it, text in state.nodes.text.items())
    yield from (f"line,{it},{text}" for it, text in state.lines.text.items())
    yield from (path_record(*it) for it in state.paths.items())


def reply(old: State, new: State) -> Iterator[str]:
    """The reply that leads from what one map published to what another one does."""
    changed = [f"{name},{','.join(it)}" for name, it in new.published.items() if old.published.get(name) != it]
    changed += [f"{name},dropped" for name in old.published if name not in new.published]
    yield f"ok,{len(changed)}"
    yield from changed


def write_folder(folder: str, old: State, new: State, reports: Mapping[str, Iterable[str]]) -> None:
    """Makes the folder with all its files, or nothing."""
    with new_folder(folder) as part:
        files = (("log.csv", dump(new)), ("reply.txt", reply(old, new)), ("back.csv", dump(old)),
                 ("back-reply.txt", reply(new, old)), *reports.items())
        for name, lines in files:
            write(os.path.join(part, name), lines)


def write(name: str, lines: Iterable[str]) -> None:
    """Writes a file of lines, and syncs it."""
    with open(name, "w", encoding="utf-8", errors="surrogateescape") as file:
        file.writelines(f"{it}\n" for it in lines)
        file.flush()
        os.fsync(file.fileno())
