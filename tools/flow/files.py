"""Files that another process may try to spoil: bytes that nobody can change, plain files that are opened without following or waiting,
folders of work with names that nobody can guess, and their removal, whatever is left in them."""
import contextlib
import copy
import errno
import fcntl
import hashlib
import os
import secrets
import stat
import tempfile
import time
from pathlib import Path
from typing import BinaryIO, Callable, Iterator, Optional, Union

FOLDER_FLAGS = os.O_RDONLY | os.O_DIRECTORY | os.O_NOFOLLOW | os.O_CLOEXEC
SEALS = fcntl.F_SEAL_WRITE | fcntl.F_SEAL_SHRINK | fcntl.F_SEAL_GROW | fcntl.F_SEAL_SEAL
# How something fails where another process spoils a folder, and not the device.
SPOILT = {errno.EACCES, errno.EEXIST, errno.EISDIR, errno.ELOOP, errno.ENOENT, errno.ENOTDIR, errno.ENOTEMPTY, errno.EPERM}
# Where a process finds a file that it was handed open.
HANDED = "/proc/self/fd/"
# What is read or written at once.
PIECE = 1 << 20
# Up to this size bytes are kept without a file, and from that size on not in memory.
SMALL, LARGE = 1 << 18, 64 << 20
# How long one folder of work is removed at most, and how long once all is to stop, in seconds.
REMOVED_FOR, REMOVED_FOR_IN_HASTE = 60.0, 0.5


class TooLarge(OSError):
    """A file has more bytes than are allowed."""


class Changed(Exception):
    """A file that is kept for a check was changed by another process."""


def open_plain(name: Union[str, Path], at: Optional[int] = None) -> int:
    """Opens a plain file to read. No link is followed and no pipe waited for: what is no plain file is an OSError."""
    found = os.open(name, os.O_RDONLY | os.O_NOFOLLOW | os.O_NONBLOCK | os.O_CLOEXEC, dir_fd=at)
    if not stat.S_ISREG(os.fstat(found).st_mode):
        os.close(found)
        raise OSError(f"{name}: no plain file")
    return found


def pieces(descriptor: int, place: int = 0) -> Iterator[bytes]:
    """The bytes of an open file from a place on, piece by piece."""
    while piece := os.pread(descriptor, PIECE, place):
        place += len(piece)
        yield piece


def write_all(descriptor: int, piece: bytes) -> None:
    """Writes a piece as a whole."""
    rest = memoryview(piece)
    while rest:
        rest = rest[os.write(descriptor, rest) :]


def sum_of(descriptor: int) -> str:
    """The sum (SHA-256) of an open file."""
    found = hashlib.sha256()
    for piece in pieces(descriptor):
        found.update(piece)
    return found.hexdigest()


def sum_of_file(path: Union[str, Path]) -> str:
    """The sum of a file that the user named, which may be a link."""
    with open_whole(path) as file:
        return sum_of(file.fileno())


def open_whole(path: Union[str, Path]) -> BinaryIO:
    """Opens a file that the user named, which may be a link, and is a plain file."""
    return os.fdopen(open_plain(os.path.realpath(path)), "rb")


def nameless(is_large: bool = False) -> BinaryIO:
    """A new file without a name: in memory, where that is to be had, and not for much."""
    if not is_large:
        with contextlib.suppress(AttributeError, OSError):
            return os.fdopen(os.memfd_create("hwtool-flow", os.MFD_CLOEXEC | os.MFD_ALLOW_SEALING), "w+b", buffering=0)
    return tempfile.TemporaryFile(buffering=0)


def is_sealed(file: BinaryIO) -> bool:
    """Seals a file, so that no process can change it from now on; whether it could be."""
    try:
        fcntl.fcntl(file.fileno(), fcntl.F_ADD_SEALS, SEALS)
        return True
    except OSError:
        return False


class Held:
    """Bytes under a name, which no other process can change: a sealed file in memory, or one without a name whose sum is compared."""

    def __init__(self, name: str, file: BinaryIO) -> None:
        """Takes over a file that was written."""
        self.name, self._file, self._bytes = name, file, b""
        self._sealed = is_sealed(file)
        self.sum, self.size = sum_of(file.fileno()), os.fstat(file.fileno()).st_size
        if self.size <= SMALL:
            self._bytes = os.pread(file.fileno(), SMALL, 0)
            if hashlib.sha256(self._bytes).hexdigest() != self.sum:
                raise Changed(f"{name}: was changed by another process")
            self._file.close()

    @staticmethod
    def of_bytes(name: str, text: bytes) -> "Held":
        """What holds these bytes."""
        file = nameless()
        write_all(file.fileno(), text)
        return Held(name, file)

    @staticmethod
    def of_file(name: str, source: int, most: Optional[int] = None) -> "Held":
        """What holds a copy of an open file; TooLarge where that has more bytes than are allowed."""
        file, copied = nameless(os.fstat(source).st_size > LARGE), 0
        for piece in pieces(source):
            copied += len(piece)
            if most is not None and copied > most:
                raise TooLarge(f"{name}: has more than {most} bytes")
            write_all(file.fileno(), piece)
        return Held(name, file)

    @contextlib.contextmanager
    def opened(self) -> Iterator[int]:
        """An open file with the bytes; Changed where these are others behind it."""
        if self._file.closed:
            with nameless() as file:
                write_all(file.fileno(), self._bytes)
                sealed = is_sealed(file)
                yield file.fileno()
                self._compare(file, sealed)
        else:
            self._compare(self._file, self._sealed)
            yield self._file.fileno()
            self._compare(self._file, self._sealed)

    def _compare(self, file: BinaryIO, sealed: bool) -> None:
        """Looks at the sum of what could not be sealed."""
        if not sealed and sum_of(file.fileno()) != self.sum:
            raise Changed(f"{self.name}: was changed by another process")

    def pieces(self) -> Iterator[bytes]:
        """The bytes, piece by piece."""
        if self._file.closed:
            yield self._bytes
        else:
            yield from pieces(self._file.fileno())

    def named(self, name: str) -> "Held":
        """The same bytes under another name."""
        found = copy.copy(self)
        found.name = name
        return found


def allow(at: int, name: str) -> None:
    """Gives the owner all rights on a folder, which is not followed where it is a link."""
    found = os.open(name, os.O_PATH | os.O_DIRECTORY | os.O_NOFOLLOW | os.O_CLOEXEC, dir_fd=at)
    try:
        os.chmod(f"{HANDED}{found}", 0o700)
    finally:
        os.close(found)


def open_folder(at: int, name: str) -> int:
    """Opens a folder of ours, also one that was left without rights; no link is followed."""
    try:
        found = os.open(name, FOLDER_FLAGS, dir_fd=at)
    except PermissionError:
        allow(at, name)
        found = os.open(name, FOLDER_FLAGS, dir_fd=at)
    mode = stat.S_IMODE(os.fstat(found).st_mode)
    if mode & 0o700 != 0o700:
        os.fchmod(found, mode | 0o700)
    return found


class OutOfTime(Exception):
    """A removal takes too long."""


class Emptied:
    """The removal of all that is in an open folder. What lies deep is moved up first, so that no path gets long."""

    def __init__(self, at: int, goes_on: Callable[[], bool]) -> None:
        self.at, self.goes_on = at, goes_on

    def remove(self) -> None:
        """Removes all that is there; an OSError where something stays."""
        while names := os.listdir(self.at):
            for name in names:
                self.remove_one(name)

    def remove_one(self, name: str) -> None:
        """Removes an entry; a folder once all folders in it are moved up and all else in it is gone."""
        if not self.goes_on():
            raise OutOfTime
        if not stat.S_ISDIR(os.stat(name, dir_fd=self.at, follow_symlinks=False).st_mode):
            os.unlink(name, dir_fd=self.at)
            return
        inner = open_folder(self.at, name)
        try:
            with os.scandir(inner) as entries:
                for it in entries:
                    self.take_out(inner, it)
        finally:
            os.close(inner)
        try:
            os.rmdir(name, dir_fd=self.at)
        except OSError as why:
            # an entry that was not seen yet
            if why.errno != errno.ENOTEMPTY:
                raise

    def take_out(self, inner: int, it: os.DirEntry) -> None:
        """Moves a folder up, and removes anything else."""
        if not self.goes_on():
            raise OutOfTime
        if it.is_dir(follow_symlinks=False):
            allow(inner, it.name)
            os.rename(it.name, secrets.token_hex(8), src_dir_fd=inner, dst_dir_fd=self.at)
        else:
            os.unlink(it.name, dir_fd=inner)


class Place:
    """A folder of work with a name that nobody can guess, outside of all results. It is removed whole, whatever is left there."""

    def __init__(self, stopping: Callable[[], bool]) -> None:
        self.path, self.stopping = Path(tempfile.mkdtemp(prefix="hwtool-flow-")), stopping
        self.at = os.open(self.path, FOLDER_FLAGS)

    def put(self, name: str, what: Held) -> None:
        """Writes a file that is not there yet."""
        into = os.open(name, os.O_WRONLY | os.O_CREAT | os.O_EXCL | os.O_NOFOLLOW | os.O_CLOEXEC, 0o600, dir_fd=self.at)
        try:
            for piece in what.pieces():
                write_all(into, piece)
        finally:
            os.close(into)

    def take(self, name: str, kept: str, most: int) -> Optional[Held]:
        """What a plain file holds, under the name by which it is kept; nothing where there is none, or it is too large."""
        try:
            found = open_plain(name, self.at)
        except OSError:
            return None
        try:
            return Held.of_file(kept, found, most)
        except TooLarge:
            return None
        finally:
            os.close(found)

    def remove(self) -> str:
        """Removes it with all that is in it; what is to be said where something stays."""
        began = time.monotonic()

        def goes_on() -> bool:
            return time.monotonic() - began < (REMOVED_FOR_IN_HASTE if self.stopping() else REMOVED_FOR)

        try:
            os.fchmod(self.at, 0o700)
            Emptied(self.at, goes_on).remove()
            if not os.path.samestat(os.stat(self.path, follow_symlinks=False), os.fstat(self.at)):
                return f"{self.path}: is another folder than was made"
            os.rmdir(self.path)
            return ""
        except OutOfTime:
            return f"{self.path}: holds too much to be removed at once; what is left there may be removed by hand"
        except FileNotFoundError:
            # it is gone already
            return ""
        except OSError as why:
            return f"{self.path}: cannot be removed: {why.strerror or why}"
        finally:
            os.close(self.at)


@contextlib.contextmanager
def place_of_work(stopping: Callable[[], bool], tell: Callable[[str], None]) -> Iterator[Place]:
    """A folder of work; it is told where something stays behind."""
    place = Place(stopping)
    try:
        yield place
    finally:
        left = place.remove()
        if left:
            tell(left)
