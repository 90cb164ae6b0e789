"""Files of comma-separated values, the files that tools write, and locks that are waited for.

A file is replaced as a whole: the new one is written beside it under a name of its own, and renamed. Of what was there, its mode and
its owner stay; a link stays one. What is no regular file, such as a device or a FIFO, is written to and never replaced.
"""
import contextlib
import csv
import errno
import fcntl
import io
import os
import secrets
import shutil
import signal
import stat
import sys
import tempfile
from typing import IO, Callable, Iterable, Iterator, List, Optional

from .command import MADE, STREAM, USAGE, Failure, remove


class FileFailure(Failure):
    """A file that can't be read or written."""

    def __init__(self, text: str):
        super().__init__(STREAM, text)


def rows_of(file: str) -> List[List[str]]:
    """The rows of a file of comma-separated values that have fields."""
    try:
        with open(file, encoding="utf-8-sig", newline="") as text:
            return [it for it in csv.reader(text) if it]
    except UnicodeDecodeError:
        raise FileFailure(f"{file}: it is not UTF-8") from None
    except (OSError, csv.Error) as error:
        raise FileFailure(f"{file}: {getattr(error, 'strerror', None) or error}") from None


def status_of(name: str) -> Optional[os.stat_result]:
    """What stands under a name, or where the link there leads; None if nothing does."""
    try:
        return os.stat(name)
    except FileNotFoundError:
        return None


def is_special(found: Optional[os.stat_result]) -> bool:
    """Whether it is there, and no regular file."""
    return found is not None and not stat.S_ISREG(found.st_mode)


def identity(name: str) -> str:
    """What two names of the same file have in common; empty if it is no regular file."""
    found = status_of(name)
    if is_special(found):
        return ""
    return f"{found.st_dev} {found.st_ino}" if found else os.path.realpath(name)


def refuse_inputs(outputs: Iterable[Optional[str]], inputs: Iterable[Optional[str]] = ()) -> None:
    """Fails if a file that is to be written is read too, or is to be written twice, whatever its names are."""
    taken = {identity(it): "read" for it in inputs if it}
    for name in outputs:
        if name and (it := identity(name)):
            if it in taken:
                raise Failure(USAGE, f"{name} is {taken[it]} too: it stays as it is")
            taken[it] = "written"


@contextlib.contextmanager
def beside(target: str) -> Iterator[str]:
    """A name in the folder of a file or a folder, which nothing has. What is made under it is removed at the end, also if the tool
    is terminated."""
    name = os.path.join(os.path.dirname(os.path.abspath(target)), f".olr-keep-{secrets.token_hex(8)}.part")
    MADE.add(name)
    try:
        yield name
    except OSError as error:
        if error.filename == name:
            error.filename, error.filename2 = target, None
        raise
    finally:
        remove(name)
        MADE.discard(name)


def refuse_existing(folder: str) -> None:
    """Fails if the folder is there, or can't be made."""
    if os.path.lexists(folder):
        raise Failure(USAGE, f"{folder} is there already")
    above = os.path.dirname(os.path.abspath(folder))
    if not os.path.isdir(above):
        raise Failure(USAGE, f"{above} is no folder")


@contextlib.contextmanager
def new_folder(folder: str) -> Iterator[str]:
    """A folder with all its files, or nothing: they are written in another one beside it, which is then renamed."""
    try:
        with beside(folder.rstrip("/")) as part:
            os.mkdir(part)
            yield part
            refuse_existing(folder)
            os.rename(part, folder)
    except OSError as error:
        raise FileFailure(f"{folder}: {error.strerror}") from None


@contextlib.contextmanager
def replaced(name: str, is_synced: bool = True) -> Iterator[IO[bytes]]:
    """A file for the new contents of another one, which it replaces at the end, if all went well. Raises OSError: also if the file
    may not be written to, or its owner can't be the same."""
    found, target = status_of(name), os.path.realpath(name)
    if is_special(found):
        with open(name, "wb") as file:
            yield file
        return
    if found and not os.access(target, os.W_OK):
        raise PermissionError(errno.EACCES, os.strerror(errno.EACCES), name)
    with beside(target) as part:
        with open(os.open(part, os.O_WRONLY | os.O_CREAT | os.O_EXCL | os.O_NOFOLLOW | os.O_CLOEXEC, 0o666), "wb") as file:
            if found:
                keep_owner(file.fileno(), found)
            yield file
            file.flush()
            if is_synced:
                os.fsync(file.fileno())
        os.replace(part, target)
        if is_synced:
            sync_folder(os.path.dirname(target))


def keep_owner(file: int, found: os.stat_result) -> None:
    """Gives an open file the owner, the group and the mode that another one has."""
    now = os.fstat(file)
    if (now.st_uid, now.st_gid) != (found.st_uid, found.st_gid):
        try:
            os.fchown(file, found.st_uid, found.st_gid)
        except PermissionError:
            raise PermissionError(errno.EPERM, "its owner and its group would be others: remove it first") from None
    os.fchmod(file, stat.S_IMODE(found.st_mode))


def sync_folder(name: str) -> None:
    """Syncs a folder, so that the names in it stay."""
    folder = os.open(name, os.O_RDONLY | os.O_DIRECTORY)
    try:
        os.fsync(folder)
    finally:
        os.close(folder)


def unnamed_file(folder: Optional[str] = None) -> IO[bytes]:
    """A new file without a name, in this folder or where temporary files are. The signals that terminate a tool wait meanwhile, since
    to find that place tempfile writes a file there, and removes it."""
    before = signal.pthread_sigmask(signal.SIG_BLOCK, (signal.SIGTERM, signal.SIGHUP))
    try:
        return tempfile.TemporaryFile(dir=folder)
    finally:
        signal.pthread_sigmask(signal.SIG_SETMASK, before)


@contextlib.contextmanager
def replacing(name: Optional[str]) -> Iterator[IO[str]]:
    """A text file for the new contents of another one, as `replaced`. Without a name it is printed at the end."""
    if not name:
        with io.TextIOWrapper(unnamed_file(), encoding="utf-8") as file:
            yield file
            file.seek(0)
            shutil.copyfileobj(file, sys.stdout)
            sys.stdout.flush()
        return
    try:
        with replaced(name) as binary:
            text = io.TextIOWrapper(binary, encoding="utf-8")
            yield text
            text.detach()
    except OSError as error:
        raise FileFailure(f"{name}: {error.strerror}") from None


def open_lock(name: str) -> int:
    """Opens the file beside another one by which that is locked, and makes it if it is missing. Raises OSError; also if it is a
    link, or no regular file."""
    lock = os.open(name, os.O_RDWR | os.O_CREAT | os.O_NOFOLLOW | os.O_CLOEXEC | os.O_NONBLOCK, 0o666)
    if is_special(os.fstat(lock)):
        os.close(lock)
        raise OSError(errno.EINVAL, "it is no regular file", name)
    return lock


@contextlib.contextmanager
def waiting_lock(name: str, say: Callable[[str], None]) -> Iterator[None]:
    """Holds the lock of a file, NAME.lock, which has the process id of its holder. If another process holds it, that is said, and
    waited for. What is no regular file has none."""
    if is_special(status_of(name)):
        yield
        return
    beside_it = f"{os.path.realpath(name)}.lock"
    try:
        lock = open_lock(beside_it)
    except OSError as error:
        raise FileFailure(f"{beside_it}: {error.strerror}") from None
    try:
        try:
            fcntl.flock(lock, fcntl.LOCK_EX | fcntl.LOCK_NB)
        except BlockingIOError:
            say(f"waits for process {os.pread(lock, 20, 0).decode('ascii', 'replace').strip() or 'unknown'}, which holds {beside_it}")
            fcntl.flock(lock, fcntl.LOCK_EX)
        os.ftruncate(lock, 0)
        os.pwrite(lock, f"{os.getpid()}\n".encode(), 0)
        yield
    finally:
        os.close(lock)
