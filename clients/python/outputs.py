"""Files that are written whole or not at all, and runs that end with a line and a status. Shared by the scripts.

An output is written beside its name and renamed once all of it is there: a run that is stopped, or for which something
does not fit, leaves the old file as it was. What goes wrong is one line on standard error. The exit statuses are those
of the program: 1 where words or a file do not fit, 2 of a refused proof, 7 where a file cannot be read or written, 8
without memory.
"""
from __future__ import annotations

import contextlib
import os
import stat
import sys
from typing import IO, Callable, Iterator, Optional, Sequence

if __package__:
    from .mrtree_check import Ended, Refused, __version__, meaning_of
else:
    from mrtree_check import Ended, Refused, __version__, meaning_of

STOPPED, UNREAD = 130, 141  # the statuses of a run that is interrupted, and of one whose output nobody reads


class Unfit(Exception):
    """Something in a file or on a command line does not fit: what is wrong."""


def refuse_same(out: str, inputs: Sequence[str]) -> None:
    """Raises Unfit where an output is, by this or another name, a file that is read."""
    for name in inputs:
        is_same = name == out
        with contextlib.suppress(OSError, ValueError):
            is_same = is_same or os.path.samefile(name, out)
        if is_same and out != "-":
            raise Unfit("%s is to be written, and it is read too: give the output another name" % out)


def is_special(name: str) -> bool:
    """Whether a pipe, a device or the like has this name, which is written to as it is."""
    if name.startswith(("/dev/", "/proc/")):
        return True
    with contextlib.suppress(OSError, ValueError):
        mode = os.stat(name).st_mode
        return not (stat.S_ISREG(mode) or stat.S_ISDIR(mode))
    return False


@contextlib.contextmanager
def written(name: str, inputs: Sequence[str] = ()) -> Iterator[IO[bytes]]:
    """A file to write to, which has this name once all is written: a new one, or one that takes an old one's place.

    `-` is the standard output. Raises Unfit where the name is that of an input, and OSError.
    """
    refuse_same(name, inputs)
    is_printed = name in ("-", "/dev/stdout")
    if is_printed or is_special(name):
        with open(1 if is_printed else name, "wb", closefd=not is_printed) as file:
            yield file
        return
    whole = os.path.realpath(name)
    if os.path.isdir(whole):
        raise IsADirectoryError(21, "it is a folder", name)
    part = "%s.part-%d" % (whole, os.getpid())
    try:
        with open(os.open(part, os.O_WRONLY | os.O_CREAT | os.O_EXCL, mode_of(whole)), "wb") as file:
            yield file
            file.flush()
            os.fsync(file.fileno())
        os.replace(part, whole)
    except BaseException as fault:
        with contextlib.suppress(OSError):
            os.remove(part)
        if isinstance(fault, OSError):
            fault.filename = name  # that of the part means nothing to anybody
        raise


def mode_of(name: str) -> int:
    """Who may read and write a new file: as with the one that has this name, or as the system has it."""
    with contextlib.suppress(OSError):
        return stat.S_IMODE(os.stat(name).st_mode)
    return 0o666


def tell(script: str, words: str) -> None:
    """Says something on standard error, if there is one."""
    with contextlib.suppress(OSError, ValueError):
        if sys.stderr:
            print("%s: %s" % (script, words), file=sys.stderr, flush=True)


def print_help(word: str, script: str, told: Optional[str]) -> None:
    """Prints what a script says of itself, or for the word --version its version. Raises OSError."""
    text = "%s %s\n" % (script, __version__) if word == "--version" else told or "usage: %s\n" % script
    with written("-") as file:
        file.write(text.encode("utf-8"))


def status_of(script: str, work: Callable[[], None]) -> int:
    """Does the work of a script; answers its exit status, once what went wrong is told in a line."""
    try:
        work()
        return 0
    except (Unfit, Refused) as fault:
        tell(script, str(fault))
        if isinstance(fault, Refused):
            tell(script, fault.meaning())
        return 2 if isinstance(fault, Refused) else 1
    except Ended as ended:
        tell(script, ended.line)
        if type(ended) is Ended and ended.status == 2:
            tell(script, meaning_of(ended.line))
        return ended.status
    except BrokenPipeError:
        return UNREAD
    except OSError as error:
        tell(script, ": ".join(str(part) for part in (error.filename, error.strerror or "it cannot be read") if part))
        return 7
    except MemoryError:
        tell(script, "there is not enough memory")
        return 8
    except KeyboardInterrupt:
        return STOPPED
