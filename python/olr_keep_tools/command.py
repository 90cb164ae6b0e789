"""What the tools have in common: their arguments, their messages, and how they end.

    def main():
        chosen = command_line(__doc__).parse_args()
        raise Failure(STREAM, "there is nothing to print")

    run_tool(main)
"""
import os
import sys
from types import FrameType, TracebackType
from typing import Callable, NoReturn, Optional, Set, Type

NAME = os.path.basename(sys.argv[0])
# The folder above those of the tools and of this package.
TOP = os.path.realpath(os.path.join(os.path.dirname(os.path.realpath(__file__)), "../.."))


def without_trace(kind: Type[BaseException], error: BaseException, trace: Optional[TracebackType]) -> None:
    """Prints an exception that nobody handled; an interrupt before `run_tool` has no trace."""
    if kind is not KeyboardInterrupt:
        sys.__excepthook__(kind, error, trace)
    elif sys.stderr:
        print(f"{NAME}: interrupted", file=sys.stderr, flush=True)


if os.path.dirname(os.path.dirname(os.path.realpath(sys.argv[0]))) == TOP:
    sys.excepthook = without_trace  # before the imports that take time

import argparse  # noqa: E402
import contextlib  # noqa: E402
import math  # noqa: E402
import shutil  # noqa: E402
import signal  # noqa: E402
import time  # noqa: E402

USAGE, STREAM, INTERRUPTED = 2, 3, 130
SECONDS = 5.0  # between two reports of progress
LEAST = 0.001  # of an argument that is a number above zero
MADE: Set[str] = set()  # files and folders that are removed if the tool is terminated


class Failure(Exception):
    """Why a tool ends: an exit status, and a message."""

    def __init__(self, status: int, text: str):
        super().__init__(text)
        self.status = status


def printable(text: str) -> str:
    """A text as it may be printed on a terminal: with a mark for each character that isn't printed, but for line ends and tabs."""
    return "".join(it if it.isprintable() or it in "\n\t" else "\ufffd" for it in text)


def say(text: str) -> None:
    """Prints a message on standard error, if it is open. It may name files, arguments and records as they are."""
    with contextlib.suppress(OSError):
        if sys.stderr:
            print(f"{NAME}: {printable(text)}", file=sys.stderr, flush=True)


class Progress:
    """Says how far the work is, at most every few seconds."""

    def __init__(self) -> None:
        self.start = self.last = time.monotonic()

    def __call__(self, what: str) -> None:
        now = time.monotonic()
        if now - self.last >= SECONDS:
            self.last = now
            say(f"{now - self.start:.0f} s: {what}")


class Parser(argparse.ArgumentParser):
    """A parser of the command line whose messages can be printed."""

    def error(self, message: str) -> NoReturn:
        super().error(printable(message))


def command_line(about: Optional[str], usage: Optional[str] = None) -> argparse.ArgumentParser:
    """A parser of the command line, whose help is a text as at the head of a tool: its statuses are printed last."""
    text, statuses, last = (about or "").partition("\n\nstatus: ")
    form = argparse.RawDescriptionHelpFormatter
    return Parser(description=text, epilog=statuses.strip() + " " + last, formatter_class=form, usage=usage)


def number_of(what: str, least: float, most: float) -> Callable[[str], float]:
    """An argument that is a number of metres or seconds between these."""

    def number(text: str) -> float:
        try:
            value = float(text)
        except ValueError:
            value = -math.inf
        if not least <= value <= most:
            raise argparse.ArgumentTypeError(f"{text}: not a number of {what} from {least:g} to {most:g}")
        return value

    return number


def percent(least: float = 0.0) -> Callable[[str], float]:
    """An argument that is a percentage of at least this one, as `2%` or `2`: the share that it is."""
    number = number_of("percent", least, 100)
    return lambda text: number(text[:-1] if text.endswith("%") else text) / 100


def whole_number(least: int) -> Callable[[str], int]:
    """An argument that is a whole number of at most twelve digits, from this one on."""

    def number(text: str) -> int:
        if not (text.isascii() and text.isdecimal() and len(text) <= 12 and int(text) >= least):
            raise argparse.ArgumentTypeError(f"{text!r} is not a number from {least}")
        return int(text)

    return number


def run_tool(main: Callable[[], int], interrupted: str = "interrupted") -> NoReturn:
    """Calls the main function of a tool, and ends with the status that it returns, or with that of its failure. If a file or
    the output fails, the status is 3; if the reader of the output is gone, nothing is printed. An interrupt ends it with 130; a
    signal that terminates it also removes what is only half made."""
    for number in (signal.SIGTERM, signal.SIGHUP):
        if signal.getsignal(number) is signal.SIG_DFL:
            signal.signal(number, end_by)
    try:
        if sys.stdout is None:
            raise Failure(STREAM, "standard output is closed")
        status = main()
        sys.stdout.flush()
    except Failure as why:
        status = ended(why.status, str(why))
    except BrokenPipeError:
        status = ended(STREAM, "")
    except OSError as error:
        status = ended(STREAM, f"{error.filename or 'the output'}: {error.strerror or error}")
    except MemoryError:
        status = ended(STREAM, "out of memory")
    except RecursionError:
        status = ended(STREAM, "the input is nested too deeply")
    except UnicodeError as error:
        status = ended(STREAM, f"a name or a text is not UTF-8: {error}")
    except KeyboardInterrupt:
        status = ended(INTERRUPTED, interrupted)
    sys.exit(status)


def ended(status: int, text: str) -> int:
    """Prints why a tool ends, and returns its status. What was printed is written, as far as its reader takes it."""
    try:
        if sys.stdout:
            sys.stdout.flush()
    except OSError:
        os.dup2(os.open(os.devnull, os.O_WRONLY), 1)
    if text:
        say(text)
    return status


def remove(name: str) -> None:
    """Removes a file, or a folder with all that is in it, if it is there."""
    with contextlib.suppress(OSError):
        if os.path.isdir(name) and not os.path.islink(name):
            shutil.rmtree(name, ignore_errors=True)
        else:
            os.unlink(name)


def end_by(number: int, _: Optional[FrameType]) -> None:
    """Removes what is only half made, and ends by this signal, as without a handler."""
    for name in list(MADE):
        remove(name)
    signal.signal(number, signal.SIG_DFL)
    os.kill(os.getpid(), number)
