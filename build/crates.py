"""The crates of this repository by crates.txt: the dependencies, the source files and the sum of the sources of each."""
import hashlib
import os
from typing import Collection, Dict, Iterator, List, Sequence

TOP = os.path.dirname(os.path.dirname(os.path.realpath(__file__)))


def rows() -> Dict[str, str]:
    """The lines of crates.txt, by the crate's name."""
    with open(f"{TOP}/crates.txt", encoding="utf-8") as file:
        return {line.split()[0].rstrip(":"): line for line in file if line.split("#")[0].strip()}


def declarations(crates: Collection[str]) -> List[str]:
    """The lines of crates.txt about these crates."""
    return [line for name, line in rows().items() if name in crates]


def uses() -> Dict[str, List[str]]:
    """The crates that each crate uses, those of the toolchain among them."""
    return {name: line.split("#")[0].partition(":")[2].split() for name, line in rows().items()}


def dependencies() -> Dict[str, List[str]]:
    """The crates of this repository on which each of them depends."""
    found = uses()
    return {name: [it for it in used if it in found] for name, used in found.items()}


def libraries(crate: str) -> List[str]:
    """The crates of the toolchain that a crate uses, but for std."""
    return [it for it in uses()[crate] if it not in uses()]


def is_static(crate: str) -> bool:
    """Whether a crate is a static library for C."""
    return "staticlib" in rows()[crate].partition(":")[0].split()


def crates_below(crate: str) -> List[str]:
    """A crate and all that it depends on, the lowest first."""
    below = dependencies()
    found: List[str] = []

    def take(name: str) -> None:
        for it in below[name]:
            take(it)
        if name not in found:
            found.append(name)

    take(crate)
    return found


def sources(crate: str) -> Iterator[str]:
    """The source files of a crate."""
    for part in ("src", "specs", "proofs"):
        for folder, _, files in os.walk(f"{TOP}/crates/{crate}/{part}"):
            yield from (os.path.join(folder, file) for file in files if file.endswith((".rt", ".antt")))


def sums(crates: Sequence[str], version: str = "") -> Dict[str, str]:
    """Of each crate a sum of its line in crates.txt, of its sources, of those of the crates below it, and of the toolchain's
    version, if one is given. `crates` has the lowest first."""
    made: Dict[str, str] = {}
    below = dependencies()
    for crate in crates:
        whole = hashlib.sha256(repr((version, declarations([crate]))).encode())
        for path in sorted(sources(crate)):
            with open(path, "rb") as file:
                whole.update(repr((path[len(TOP) + 1 :], hashlib.sha256(file.read()).digest())).encode())
        whole.update(repr([made[it] for it in below[crate]]).encode())
        made[crate] = whole.hexdigest()[:24]
    return made
