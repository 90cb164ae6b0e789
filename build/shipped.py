"""The proved program and library for C of this checkout: as they were built here, or as they are shipped in dist/.

What was built here is taken if the sum that build/build wrote beside it is that of the sources; else what dist/ has, if
dist/PROVED has that sum. Either is taken only if it has the SHA-256 that was written with the sum. The program of dist/ is
unpacked once, below out/ or in the user's cache, and in memory if it can be written to neither.

    program()        the name of a file to be executed
    opened()         the opened program
    content(LIBRARY) the bytes of the library for C
"""
import contextlib
import fcntl
import functools
import hashlib
import lzma
import os
import re
import stat
import subprocess
from typing import Dict, Iterator, List, NamedTuple, Optional, Tuple

from crates import TOP, crates_below, sums

FOLDER = f"{TOP}/dist"
PROVED = f"{FOLDER}/PROVED"
# Where the program's text of its version names the logic with which it is proved.
VERSION = f"{TOP}/crates/olr_run/src/command_line.rt"
LOGIC = re.compile(r"\blogic ([0-9a-f]+)\b")
MOST = 1 << 26  # more bytes than a product has
NEEDS = "Linux on a processor with x86-64-v2, and the C library of glibc 2.34 or later"
AGAIN = "take dist/ as it was committed, or call build/dist with the Rattle toolchain in PATH"


class NoProduct(Exception):
    """Why there is no program or library, and what to do."""


class Stale(NoProduct):
    """Neither what was built here nor dist/ is of these sources, for this reason."""

    def __init__(self, reason: str):
        super().__init__(f"{reason}: take the files as they were committed, or call ./olr-keep with the Rattle toolchain in PATH")
        self.reason = reason


class Product(NamedTuple):
    """What dist/ has: its name there and in the crate's folder `out`, the crate, and its sources that are no crate's."""

    name: str
    crate: str
    files: Tuple[str, ...] = ()

    @property
    def built(self) -> str:
        """Where it is built."""
        return f"{TOP}/crates/{self.crate}/out/{self.name}"

    @property
    def packed(self) -> str:
        """Where it is shipped."""
        return f"{FOLDER}/{self.name}.xz"


class Proof(NamedTuple):
    """What a product was when it was proved: its SHA-256, the sum of its sources, and the line of `rt version`."""

    sha: str
    sources: str
    kit: str

    @classmethod
    def of(cls, line: str) -> "Proof":
        """Reads it. Raises ValueError."""
        sha, sum_, kit = line.strip().split(" ", 2)
        return cls(sha, sum_, kit)

    def __str__(self) -> str:
        return " ".join(self)


PROGRAM = Product("olr_keep", "olr_keep")
LIBRARY = Product("libolr_c.a", "olr_c", tuple(f"include/olr_keep.{it}" for it in ("c", "h", "map")))
PRODUCTS = {"program": PROGRAM, "library": LIBRARY}


def product_of(crate: str) -> Product:
    """The product of a crate, or another program."""
    return next((it for it in PRODUCTS.values() if it.crate == crate), Product(crate, crate))


def wanted_logic() -> str:
    """The logic with which the program says that it is proved."""
    with open(VERSION, encoding="utf-8") as file:
        return logic_of(file.read())


def logic_of(text: str) -> str:
    """The first logic that a text names, or an empty text."""
    named = LOGIC.search(text)
    return named[1] if named else ""


# ---- the sources


def source_sums(product: Product) -> Dict[str, str]:
    """The sums of the crates of a product, and last that of the product."""
    made = sums(crates_below(product.crate))
    whole = [made[product.crate]]
    for name in product.files:
        with open(f"{TOP}/{name}", "rb") as file:
            whole.append(hashlib.sha256(file.read()).hexdigest())
    return {**made, product.name: hashlib.sha256(repr(whole).encode()).hexdigest()[:24] if product.files else whole[0]}


def source_sum(product: Product) -> str:
    """The sum of a product's sources."""
    return source_sums(product)[product.name]


# ---- folders of the user's own


def stores() -> List[str]:
    """The folders for what is unpacked, the first that can be used before others."""
    cache = os.environ.get("XDG_CACHE_HOME", "")
    cache = cache if cache.startswith("/") else os.path.expanduser("~/.cache")
    return [f"{TOP}/out/unpacked", f"{cache}/olr-keep"]


@contextlib.contextmanager
def folder_of(place: str) -> Iterator[int]:
    """A folder that the user owns and nobody else can write to, opened. It is made, with the one above, if it is missing; no
    link is followed. Raises OSError."""
    above, name = os.path.split(place)
    with contextlib.suppress(FileExistsError):
        os.mkdir(above)
    flags, held = os.O_RDONLY | os.O_DIRECTORY | os.O_NOFOLLOW, []
    try:
        held.append(os.open(above, flags))
        with contextlib.suppress(FileExistsError):
            os.mkdir(name, 0o755, dir_fd=held[0])
        held.append(os.open(name, flags, dir_fd=held[0]))
        require_own(held[1])
        yield held[1]
    finally:
        for it in held:
            os.close(it)


def require_own(file: int) -> None:
    """Fails if others own a file or folder, or can write to it."""
    found = os.fstat(file)
    if found.st_uid != os.geteuid() or found.st_mode & (stat.S_IWGRP | stat.S_IWOTH):
        raise PermissionError("not the user's own")


def opened_file(folder: int, name: str) -> int:
    """Opens a file of such a folder. Raises OSError."""
    file = os.open(name, os.O_RDONLY | os.O_NOFOLLOW | os.O_NONBLOCK, dir_fd=folder)
    try:
        require_own(file)
    except OSError:
        os.close(file)
        raise
    return file


def write(folder: int, data: bytes) -> int:
    """Writes a file that is named `part` and can be executed, in a folder that is locked, and opens it."""
    with contextlib.suppress(FileNotFoundError):
        os.unlink("part", dir_fd=folder)
    with open(os.open("part", os.O_WRONLY | os.O_CREAT | os.O_EXCL | os.O_NOFOLLOW, 0o600, dir_fd=folder), "wb") as file:
        file.write(data)
        file.flush()
        os.fchmod(file.fileno(), 0o555)
        os.fsync(file.fileno())
    return opened_file(folder, "part")


# ---- what was built here


def sha_of(file: int) -> str:
    """The SHA-256 of an opened file, which is read from its start."""
    whole, at = hashlib.sha256(), 0
    while part := os.pread(file, 1 << 20, at):
        whole.update(part)
        at += len(part)
    return whole.hexdigest()


def note_built(product: Product, sum_: str, kit: str) -> None:
    """Writes beside what was built what it is, and from which sources."""
    with open(product.built, "rb") as file:
        proof = Proof(sha_of(file.fileno()), sum_, kit)
    with open(f"{product.built}.part", "w", encoding="utf-8") as file:
        file.write(f"{proof}\n")
    os.replace(f"{product.built}.part", f"{product.built}.proved")


def built(product: Product, wanted: Optional[str] = None) -> Optional[Tuple[Proof, int]]:
    """What was built here, opened, if it is as it was proved, and its sources have this sum, if one is given."""
    file = -1
    try:
        with open(f"{product.built}.proved", encoding="utf-8") as line:
            proof = Proof.of(line.read())
        file = os.open(product.built, os.O_RDONLY)
        if proof.sources == (wanted or proof.sources) and proof.sha == sha_of(file):
            return proof, file
    except (OSError, ValueError):
        pass
    if file >= 0:
        os.close(file)
    return None


# ---- what dist/ has


def shipped_proofs() -> Tuple[Dict[str, Proof], Dict[str, str]]:
    """What dist/PROVED says: of each product, and the sums of the crates."""
    proofs: Dict[str, Proof] = {}
    crates: Dict[str, str] = {}
    try:
        with open(PROVED, encoding="utf-8") as file:
            for kind, _, rest in (line.strip().partition(" ") for line in file if line[0] != "#"):
                if kind == "crate":
                    name, sum_ = rest.split()
                    crates[name] = sum_
                else:
                    proofs[kind] = Proof.of(rest)
        return proofs, crates
    except (OSError, ValueError) as error:
        raise Stale(f"dist/PROVED can't be read ({getattr(error, 'strerror', error)})") from None


def shipped(product: Product, wanted: str) -> Proof:
    """What dist/ has, if it is of the sources with this sum."""
    proofs, crates = shipped_proofs()
    proof = proofs.get(product.name)
    if not proof:
        raise Stale(f"dist/PROVED has no line of {product.name}")
    if proof.sources != wanted:
        made = source_sums(product)
        changed = next((f"crates/{it}" for it in crates_below(product.crate) if crates.get(it) != made[it]), "include/olr_keep.*")
        raise Stale(f"the sources in {changed} are not those from which dist/ was proved")
    if logic_of(proof.kit) != wanted_logic():
        raise NoProduct(f"dist/PROVED names another toolchain, '{proof.kit}', not one with the logic {wanted_logic()}: {AGAIN}")
    return proof


def unpacked(product: Product, proof: Proof) -> bytes:
    """The bytes of what dist/ has, if they are those that were proved."""
    try:
        with lzma.open(product.packed) as file:
            data = file.read(MOST)
    except (OSError, EOFError, lzma.LZMAError) as error:
        raise NoProduct(f"dist/{product.name}.xz can't be unpacked ({error}): {AGAIN}") from None
    if hashlib.sha256(data).hexdigest() != proof.sha:
        raise NoProduct(f"dist/{product.name}.xz is not what was proved, since its SHA-256 is another one: {AGAIN}")
    return data


def try_once(file: int) -> None:
    """Fails if this machine can't execute the opened program. Raises OSError if it isn't allowed to."""
    try:
        ended = subprocess.run([f"/proc/self/fd/{file}", "--version"], pass_fds=(file,), stdin=subprocess.DEVNULL,
                               capture_output=True, text=True, errors="replace")
        status, said = ended.returncode, " ".join(ended.stderr.split())
    except PermissionError:
        raise
    except OSError as error:
        status, said = error.errno or 1, error.strerror
    if status:
        raise NoProduct(f"the program can't run on this machine ({said or f'status {status}'}): it needs {NEEDS}")


def in_store(place: str, proof: Proof) -> Tuple[int, str]:
    """The unpacked program, opened, and its name. It is unpacked to a folder if it isn't there. Raises OSError."""
    name = f"{PROGRAM.name}-{proof.sha[:16]}"
    with folder_of(place) as folder:
        try:
            file = opened_file(folder, name)
        except FileNotFoundError:
            fcntl.flock(folder, fcntl.LOCK_EX)
            # Another start may have been quicker.
            with contextlib.suppress(FileNotFoundError):
                return opened_file(folder, name), f"{place}/{name}"
            file = write(folder, unpacked(PROGRAM, proof))
            try:
                try_once(file)
                os.rename("part", name, src_dir_fd=folder, dst_dir_fd=folder)
            except BaseException:
                os.unlink("part", dir_fd=folder)
                raise
    return file, f"{place}/{name}"


def in_memory(proof: Proof) -> Tuple[int, str]:
    """The unpacked program in memory, opened, and its name while this process runs."""
    try:
        with open(os.memfd_create(PROGRAM.name), "wb") as file:
            file.write(unpacked(PROGRAM, proof))
            file.flush()
            program = os.open(f"/proc/self/fd/{file.fileno()}", os.O_RDONLY)
        try_once(program)
    except OSError as error:
        raise NoProduct(f"there is no folder for the unpacked program ({error.strerror}): name one by XDG_CACHE_HOME") from None
    return program, f"/proc/{os.getpid()}/fd/{program}"


# ---- either of them


@functools.lru_cache(maxsize=None)
def found() -> Tuple[int, str]:
    """The proved program, opened, and the name of its file."""
    wanted = source_sum(PROGRAM)
    own = built(PROGRAM, wanted)
    if own:
        return own[1], PROGRAM.built
    proof = shipped(PROGRAM, wanted)
    for place in stores():
        with contextlib.suppress(OSError):
            file, name = in_store(place, proof)
            if sha_of(file) != proof.sha:
                raise NoProduct(f"{name} was changed after it was unpacked: remove it")
            return file, name
    return in_memory(proof)


def opened() -> int:
    """The proved program, opened, so that what is executed is what was compared."""
    return found()[0]


def program() -> str:
    """The name of the proved program, as long as this process runs."""
    return found()[1]


def content(product: Product) -> bytes:
    """The bytes of a product."""
    wanted = source_sum(product)
    own = built(product, wanted)
    if own:
        with open(own[1], "rb") as file:
            return file.read()
    return unpacked(product, shipped(product, wanted))
