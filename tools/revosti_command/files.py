"""Files read whole, and files that are replaced at once: what a file held is there until what it gets is written and
synced.

A set of marks that is changed is locked from its reading to its replacing (`held`): its own file is locked, not one
beside it, so that nothing is left behind. Whoever gets the lock looks whether the file is still the one of this name,
for the one before may have replaced it.
"""

import errno
import fcntl
import os
import stat
import sys
import tempfile
from contextlib import contextmanager, suppress
from pathlib import Path

from .words import CannotRun, Complaint

STANDARD = (None, "-")
MOST_BYTES = 2**26
NO_LINKS = (errno.EPERM, errno.EOPNOTSUPP, errno.ENOSYS, errno.EMLINK)


def name_of(file):
    """A file's name in messages."""
    return "standard input" if file in STANDARD else str(file)


def read_file(file):
    """The bytes of a file, or of standard input."""
    if file not in STANDARD:
        with named(file), open(file, "rb") as source:
            return read_most(source, file)
    if sys.stdin is None:
        raise CannotRun("standard input: it is closed")
    with named("standard input"):
        return read_most(sys.stdin.buffer, "standard input")


def read_most(source, name):
    """All bytes of a file that has an end within reason."""
    data = source.read(MOST_BYTES + 1)
    if len(data) > MOST_BYTES:
        raise Complaint(f"{name}: longer than {MOST_BYTES:,} bytes, which nothing is that is read here")
    return data


def write_out(data):
    """Bytes to standard output."""
    if sys.stdout is None:
        raise CannotRun("standard output: it is closed")
    with named("standard output"):
        try:
            sys.stdout.buffer.write(data)
            sys.stdout.buffer.flush()
        except OSError:
            with suppress(OSError):  # what could not be written is not tried again as the program ends
                os.dup2(os.open(os.devnull, os.O_WRONLY), sys.stdout.fileno())
            raise


@contextmanager
def named(file):
    """Lets what the system says of a file name the file."""
    try:
        yield
    except BrokenPipeError:
        raise
    except OSError as error:
        raise CannotRun(f"{file}: {error.strerror or error}") from error


def replace(file, data, first=lambda: None):
    """Gives a file these bytes at once, or makes it; what is to be done first is done once they are written. What is no
    regular file, such as /dev/null, is written as it is."""
    place = real(file)
    with named(file):
        if place.exists() and not place.is_file():
            Path(file).write_bytes(data)
            return
        with written_beside(place, data) as beside:
            first()
            os.replace(beside, place)
        sync_folder(place.parent)


def create(file, data, first=lambda: None):
    """Makes a file with these bytes, where there is none of its name."""
    place = real(file)
    with named(file), written_beside(place, data) as beside:
        if os.path.lexists(place):
            raise Complaint(f"{file}: there is such a file already; --force replaces it")
        first()
        try:
            link_new(beside, place)
        except FileExistsError as error:
            raise Complaint(f"{file}: there is such a file already; --force replaces it") from error
        sync_folder(place.parent)


def link_new(beside, place):
    """Gives a file a second name that nothing has yet."""
    try:
        os.link(beside, place)
    except OSError as error:
        if error.errno not in NO_LINKS:
            raise
        if place.exists():  # a file system without links
            raise FileExistsError(errno.EEXIST, "File exists") from error
        os.replace(beside, place)


@contextmanager
def written_beside(place, data):
    """A new file beside another, written and synced, with the mode of the other. It is removed unless it took the
    other's place."""
    handle, beside = tempfile.mkstemp(prefix=f".{place.name}.", suffix=".new", dir=place.parent)
    try:
        with open(handle, "wb") as out:
            out.write(data)
            out.flush()
            keep_mode(out.fileno(), place)
            os.fsync(out.fileno())
        yield beside
    finally:
        with suppress(FileNotFoundError):
            os.unlink(beside)


def keep_mode(handle, place):
    """Gives a new file the mode and the owner of the one that it replaces, or those of any new file."""
    try:
        old = place.stat()
    except FileNotFoundError:
        mask = os.umask(0)
        os.umask(mask)
        os.fchmod(handle, 0o666 & ~mask)
        return
    with suppress(PermissionError):
        os.fchown(handle, old.st_uid, old.st_gid)
    os.fchmod(handle, stat.S_IMODE(old.st_mode))


def sync_folder(folder):
    """Syncs the names in a folder, where its file system can."""
    with suppress(OSError):
        handle = os.open(folder, os.O_RDONLY | os.O_DIRECTORY)
        try:
            os.fsync(handle)
        finally:
            os.close(handle)


def real(file):
    """The file itself, where a name is a link."""
    return Path(os.path.realpath(file))


@contextmanager
def held(file):
    """Locks a file against all others that would change it; waits, and says so, while another has it."""
    handle, waited = None, False
    try:
        with named(file):
            while handle is None:
                handle = os.open(file, os.O_RDWR | os.O_CLOEXEC)
                if not stat.S_ISREG(os.fstat(handle).st_mode):
                    raise Complaint(f"{file}: expected a regular file")
                waited = lock(handle, file, waited)
                if not os.path.samestat(os.fstat(handle), os.stat(file)):
                    os.close(handle)
                    handle = None
        yield
    finally:
        if handle is not None:
            os.close(handle)


@contextmanager
def folder_held(folder):
    """Locks a folder against all others that would make a set in it, or change what is in it as one; waits, and says so,
    while another has it. A folder is not replaced as a file is, so the lock holds to its end."""
    with named(folder):
        handle = os.open(folder, os.O_RDONLY | os.O_DIRECTORY | os.O_CLOEXEC)
        lock(handle, folder, False)
    try:
        yield
    finally:
        os.close(handle)


def lock(handle, file, waited):
    """Locks a file; whether it had to wait, now or before, which is said once."""
    try:
        fcntl.flock(handle, fcntl.LOCK_EX | fcntl.LOCK_NB)
        return waited
    except BlockingIOError:
        if not waited:
            note(f"{file}: another command changes it; waiting")
        fcntl.flock(handle, fcntl.LOCK_EX)
        return True


def note(message):
    """Says something on standard error, where there is one."""
    if sys.stderr is not None:
        with suppress(OSError, ValueError):
            print(f"revosti: {message}", file=sys.stderr, flush=True)
