"""Sockets of a name, with a mode and a group."""
import contextlib
import fcntl
import grp
import os
import socket
import stat
from typing import Iterator

from olr_keep_tools.command import STREAM, USAGE, Failure

IN_USE = 7
BACKLOG = 128


def listening(name: str, mode: int, group: str) -> socket.socket:
    """A socket of this name. One that a process left which was killed is replaced; one that is served is not, nor one that another
    service is about to serve."""
    try:
        number = grp.getgrnam(group).gr_gid if group else -1
        with locked(os.path.dirname(name) or "."):
            remove_left(name)
            found = socket.socket(socket.AF_UNIX, socket.SOCK_STREAM | socket.SOCK_CLOEXEC)
            before = os.umask(0o777)
            try:
                found.bind(name)
            finally:
                os.umask(before)
            if group:
                os.chown(name, -1, number)
            os.chmod(name, mode)
            found.listen(BACKLOG)
    except KeyError:
        raise Failure(USAGE, f"there is no group {group}") from None
    except OSError as error:
        raise Failure(STREAM, f"{name}: {error.strerror or error}") from None
    return found


@contextlib.contextmanager
def locked(folder: str) -> Iterator[None]:
    """Holds a folder, so that of services that start at once each finds what those before it made."""
    held = os.open(folder, os.O_RDONLY | os.O_CLOEXEC)
    try:
        fcntl.flock(held, fcntl.LOCK_EX)
        yield
    finally:
        os.close(held)


def remove_left(name: str) -> None:
    """Removes a socket that nobody serves."""
    with contextlib.suppress(FileNotFoundError):
        if not stat.S_ISSOCK(os.stat(name).st_mode):
            raise Failure(STREAM, f"{name} is there, and is no socket")
        with socket.socket(socket.AF_UNIX, socket.SOCK_STREAM) as trial:
            try:
                trial.connect(name)
            except ConnectionRefusedError:
                os.unlink(name)
                return
            except OSError as error:
                raise Failure(STREAM, f"{name}: {error.strerror}") from None
        raise Failure(IN_USE, f"{name}: another process serves it")
