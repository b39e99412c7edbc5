"""Packed sets in files: started, read, and changed by a call (01, Pending edges).

A set is changed under a lock from its reading to its replacing, and only where the call changes it; a sheet that stops
at a record does.
"""

import os
from contextlib import suppress
from pathlib import Path

from revosti import fresh_marks, pack_marks, unpack_marks

from .files import create, folder_held, held, name_of, named, read_file, real, replace, sync_folder, written_beside
from .fingerprint import beside, fingerprint, hold, text_of
from .marks import BadMarks, byte_points, known, packed_points, read_marks
from .words import Complaint


def start(lengths, file, force=False):
    """Writes fresh marks of a board to a file, and their fingerprint beside it. Answers the marks."""
    marks = fresh_marks(lengths.n)
    keep(file, bytes(marks), fingerprint(lengths), force)
    return marks


def keep(file, data, found, force=False):
    """Makes a file for a set, with the fingerprint beside it, or none. With force, a file of this name is replaced.
    Both are written before either takes its place, and between the two steps the set is of unknown origin, never of a
    wrong one."""
    text = b"" if found is None else text_of(found)
    with folder_held(beside(file).parent), named(beside(file)), written_beside(beside(file), text) as ready:
        if force and os.path.lexists(file):
            with held(file):
                replace(file, data, lambda: forget(file))
        else:
            create(file, data, lambda: forget(file))
        if found is not None:
            os.replace(ready, beside(file))
            sync_folder(beside(file).parent)


def forget(file):
    """Removes the fingerprint of a set."""
    with named(beside(file)), suppress(FileNotFoundError):
        beside(file).unlink()


def same_file(one, other):
    """Whether two names are those of one file."""
    return one not in (None, "-") and other is not None and real(one) == real(other)


def load_set(file, n):
    """The packed set of n points in a file."""
    data = read_file(file)
    checked(file, read_marks, data, n)
    return data


def checked(file, test, *data):
    """What a test of a set answers; where it complains, the file is named."""
    try:
        return test(*data)
    except BadMarks as error:
        raise Complaint(f"{name_of(file)}: {error}") from error


def change(file, call, lengths=None):
    """What a call answers that changes the set in a file, a bytearray. The set is that of the lengths, where there are
    any; without them its size tells n."""
    with held(file):
        if lengths is not None:
            hold(file, lengths, changing=True)
        marks = bytearray(read_file(file))
        n = checked(file, packed_points, marks) if lengths is None else lengths.n
        checked(file, read_marks, marks, n)
        before = bytes(marks)
        answer = call(n, marks)
        if marks != before:
            replace(file, bytes(marks))
        return answer


def packed_of(file, data):
    """The packed set of a byte set, whose size tells n."""
    n = checked(file, byte_points, data)
    return bytes(pack_marks(n, checked(file, known, data, n)))


def bytes_of(file, data):
    """The byte set of a packed set, whose size tells n."""
    n = checked(file, packed_points, data)
    checked(file, read_marks, data, n)
    return bytes(unpack_marks(n, data))


def is_set(file):
    """Whether a file is a set of marks, by the fingerprint beside it."""
    return Path(file).is_file() and beside(file).exists()
