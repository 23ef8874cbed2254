"""Runs a command, whose modules are loaded here, so that nothing that goes wrong meanwhile ends in a traceback.

It is no part of the package, since a module of that is loaded after all others. Any Python 3.6 can read this file.
"""
import signal
import sys

if signal.getsignal(signal.SIGINT) is signal.default_int_handler:
    signal.signal(signal.SIGINT, signal.SIG_DFL)

import functools
import importlib
import os
from typing import NoReturn

LEAST = (3, 9)  # the version of Python that the package needs
MODULES = 16 << 20  # bytes that the modules take


def start(module: str, least: "tuple[int, int]" = LEAST) -> NoReturn:
    """Runs the command of a module, which needs at least this version of Python, and exits with its status."""
    failure = ""
    expect_python(least)
    try:
        # They are free again: if memory ended while a module is loaded, Python could try that for ever. In one piece they
        # would let the system's library keep what long lines take.
        bytes(MODULES // 2), bytes(MODULES // 2)
        main = load(module).main
    except (ImportError, OSError) as error:
        failure = str(error)
    except (MemoryError, SystemError):  # SystemError: Python's own code had no memory for an exception
        failure = "Memory"
    if failure:  # what the modules held is free, so that there is memory to say so
        print(f"{sys.argv[0].rpartition('/')[2]}: {failure}", file=sys.stderr)
        sys.exit(3)
    sys.exit(main())


def expect_python(least: "tuple[int, int]") -> None:
    """Runs the command by a newer Python if this one is too old, or says that there is none."""
    if sys.version_info[:2] >= least:
        return
    newer = newer_python(least)
    if newer:
        os.execv(newer, (newer, *(["-S"] if sys.flags.no_site else []), *sys.argv))
    wanted, version = ("{}.{}".format(*each) for each in (least, sys.version_info))
    name = sys.argv[0].rpartition("/")[2]
    print(f"{name}: it needs Python {wanted} or later, and {sys.executable} is Python {version}", file=sys.stderr)
    sys.exit(3)


def newer_python(least: "tuple[int, int]") -> str:
    """Returns the path of a Python of the PATH that is new enough, or an empty text. A virtual environment has one alone."""
    if sys.prefix != sys.base_prefix:
        return ""
    import shutil  # which takes memory that no other run needs

    names = (f"python{least[0]}.{minor}" for minor in range(least[1], least[1] + 20))
    return next(filter(None, map(shutil.which, names)), "")


def load(module: str):  # type: ignore[no-untyped-def]
    try:
        return importlib.import_module(module)
    except EOFError:  # a full disk has cut a file of byte code, which Python writes without a look at the count
        sys.pycache_prefix = "/dev/null"
        return importlib.import_module(module)


# The commands of an installed package.
cdx = functools.partial(start, "warcdx.cdx_command")
fetch = functools.partial(start, "warcdx.fetch_command")
update = functools.partial(start, "warcdx.update_command")
verify = functools.partial(start, "warcdx.verify_command")
gateway = functools.partial(start, "warcdx_gateway.command", (3, 11))
