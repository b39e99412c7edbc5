"""The shared object that Python loads: one that is named, the one that is installed with this package, or that of the
repository."""

import ctypes
import os
import re
import signal
import subprocess
import sys
from collections.abc import Mapping
from functools import cache
from pathlib import Path
from typing import Any

VARIABLE = "REVOSTI_SHARED"  # the path of a shared object
INSTALLED = Path(__file__).resolve().parent / "librevosti.so"
ROOT = Path(__file__).resolve().parents[2]
BUILD, SHARED = "tools/build", "target/librevosti.so"

PROGRESS = re.compile(r"\d+ of \d+: \w+|waiting for another build")
PR_SET_PDEATHSIG = 1
LIBC = ctypes.CDLL(None)

BUFFER = (ctypes.POINTER(ctypes.c_uint8), ctypes.c_size_t)
WORD, HALF, LONG = ctypes.c_uint32, ctypes.c_uint16, ctypes.c_uint64
ARGUMENTS: dict[str, tuple[Any, ...]] = {
    "revosti_measure": (WORD, WORD, *BUFFER, *BUFFER),
    "revosti_read_tsplib": (*BUFFER, *BUFFER),
    "revosti_tsplib_points": BUFFER,
    "revosti_fresh_marks": (WORD, *BUFFER),
    "revosti_pack_marks": (WORD, *BUFFER, *BUFFER),
    "revosti_unpack_marks": (WORD, *BUFFER, *BUFFER),
    "revosti_mark_sheet": (WORD, *BUFFER, *BUFFER, *BUFFER),
    "revosti_ask_sheet": (WORD, *BUFFER, *BUFFER, *BUFFER),
    "revosti_confirm": (WORD, *BUFFER),
    "revosti_withdraw": (WORD, *BUFFER),
    "revosti_list_pairs": (WORD, *BUFFER, *BUFFER, HALF, HALF, HALF, *BUFFER),
    "revosti_check_tour": (WORD, *BUFFER, *BUFFER, *BUFFER),
    "revosti_mark_between": (WORD, *BUFFER, *BUFFER, *BUFFER, *BUFFER),
    "revosti_list_between": (WORD, *BUFFER, *BUFFER, *BUFFER, HALF, HALF, HALF, *BUFFER),
    "revosti_release": (LONG,),
    "revosti_examiner_view": (LONG, *BUFFER),
    "revosti_candidate_view": (LONG, *BUFFER),
    "revosti_write_page": (WORD, *BUFFER, *BUFFER, WORD, *BUFFER),
    "revosti_read_page": (WORD, WORD, *BUFFER, *BUFFER, *BUFFER),
    "revosti_open_desks": BUFFER,
    "revosti_hand_in": (*BUFFER, WORD, WORD, *BUFFER, *BUFFER, *BUFFER),
    "revosti_next_desk": BUFFER,
    "revosti_turn": (*BUFFER, WORD, *BUFFER, *BUFFER, *BUFFER),
    "revosti_tell_line": (WORD, *BUFFER, *BUFFER, *BUFFER, WORD, *BUFFER),
}
SAVINGS: dict[str, tuple[Any, ...]] = {  # their answers have a sign
    "revosti_exchange_saving": (WORD, *BUFFER, *[HALF] * 4),
    "revosti_move_saving": (WORD, *BUFFER, *[HALF] * 5),
    "revosti_crossing_saving": (WORD, *BUFFER, *[HALF] * 8),
}


class NoLibrary(Exception):
    """The library cannot be made or has not the functions; the text says why."""


@cache
def library() -> ctypes.CDLL:
    """The functions, loaded once."""
    path = shared_object()
    try:
        loaded = ctypes.CDLL(str(path))
        declare(loaded, ARGUMENTS, ctypes.c_uint64)
        declare(loaded, SAVINGS, ctypes.c_int64)
    except (OSError, AttributeError) as error:
        raise NoLibrary(f"cannot load {path}: {error}") from error
    return loaded


def declare(loaded: ctypes.CDLL, functions: Mapping[str, tuple[Any, ...]], answer: Any) -> None:
    """Says what these functions take, and how they answer."""
    for name, arguments in functions.items():
        function = getattr(loaded, name)
        function.argtypes, function.restype = arguments, answer


def shared_object() -> Path:
    """The path of the shared object. That of the repository is built where it is not up to date."""
    named = os.environ.get(VARIABLE)
    if named:
        return Path(named)
    if INSTALLED.exists():
        return INSTALLED
    if not (ROOT / BUILD).exists():
        raise NoLibrary(f"there is no shared object: {VARIABLE} names none, {INSTALLED} is missing, and this is no repository of Revosti")
    build(ROOT)
    return ROOT / SHARED


def build(root: Path, goal: str = "library") -> None:
    """Has a goal of a repository built, and tells where the build is. The build ends with this process, however that
    ends."""
    said = []
    parent = os.getpid()
    with subprocess.Popen([root / BUILD, goal], stdin=subprocess.DEVNULL, stdout=subprocess.DEVNULL, stderr=subprocess.PIPE, text=True,
                          errors="replace", preexec_fn=lambda: end_with(parent)) as builder:
        try:
            for line in builder.stderr or ():
                if PROGRESS.fullmatch(line.rstrip("\n")):
                    print(line, end="", file=sys.stderr, flush=True)
                else:
                    said.append(line)
        except BaseException:
            builder.terminate()
            raise
    if builder.returncode:
        raise NoLibrary("".join(said).rstrip("\n") or f"{root / BUILD} ends with status {builder.returncode}")


def end_with(parent: int) -> None:
    """Lets this process be told to end when its parent does."""
    LIBC.prctl(PR_SET_PDEATHSIG, signal.SIGTERM)
    if os.getppid() != parent:
        os.kill(os.getpid(), signal.SIGTERM)
