"""The folder of results: which one is taken, what runs made in it, and how that is written, read and removed.

A folder is one of results by its mark alone: a file whose first line nothing else has, and which lists what runs made there. Nothing
that is not in that list is written over or removed, and no link is followed.
"""
import contextlib
import errno
import fcntl
import os
import pwd
import re
import secrets
import stat
import threading
from dataclasses import dataclass
from pathlib import Path
from typing import Dict, Iterable, Iterator, List, Optional, Sequence

from .engines import WordsRefused
from .files import FOLDER_FLAGS, SMALL, SPOILT, Held, open_folder, open_plain, sum_of, write_all
from .program import Broke

MARK, PART = ".hwtool-flow", ".hwtool-flow.part"
FIRST_LINE = "hwtool-flow folder of results 1"
# A name in the list: a file, a folder, or a file in a folder.
NAME = re.compile(r"[A-Za-z0-9][\w.-]*(/[A-Za-z0-9][\w.-]*)?", re.ASCII)
ANOTHER = "name another folder by -o"



def above(path: Path) -> List[Path]:
    """The folders around a path, of which links are resolved."""
    return list(Path(os.path.realpath(path)).parents)


def homes() -> List[Path]:
    """The user's home folder, by what says where it is."""
    found = [Path(os.environ["HOME"])] if os.environ.get("HOME") else []
    with contextlib.suppress(KeyError):
        found.append(Path(pwd.getpwuid(os.geteuid()).pw_dir))
    return found


def refuse_unfit(path: Path, inputs: Sequence[Path]) -> None:
    """Refuses a folder that is never one of results, whatever is in it."""
    if path.is_symlink():
        raise WordsRefused(f"{path}: is a link, which is not followed; {ANOTHER}")
    unfit = [("the root directory", [Path("/")])]
    unfit += [("the home folder, or one around it", [it, *above(it)]) for it in homes() if it != Path("/")]
    unfit += [(f"a folder that holds {it}", [it.parent, *above(it)]) for it in inputs]
    for what, places in unfit:
        if any(it.exists() and path.exists() and it.samefile(path) for it in places):
            raise WordsRefused(f"{path}: is {what}; {ANOTHER}")


@dataclass(frozen=True)
class Kept:
    """What a run wrote: its sum, the rights of its file, and, if it is not large or is wanted for good, what it holds."""

    sum: str
    mode: int
    text: Optional[Held] = None


class Folder:
    """The folder of results, which one run has at a time. All goes by its descriptor, so that it is the same one whatever its name is."""

    def __init__(self, path: Path, inputs: Sequence[Path] = ()) -> None:
        """Takes a folder that is new, empty, or of earlier runs; any other is refused, and so is one that holds what the run reads."""
        refuse_unfit(path, inputs)
        self.path, self._lock = path, threading.RLock()
        # what this run wrote, by name
        self._kept: Dict[str, Kept] = {}
        # what is to be said of files that another process spoilt
        self.notes: List[str] = []
        self._is_new = not path.exists()
        if self._is_new:
            path.mkdir()
        elif not path.is_dir():
            raise WordsRefused(f"{path}: is there, and is no folder; {ANOTHER}")
        self.at = os.open(path, FOLDER_FLAGS)
        try:
            fcntl.flock(self.at, fcntl.LOCK_EX | fcntl.LOCK_NB)
        except BlockingIOError:
            raise Broke(f"{path}: another run of hwtool-flow goes on there") from None
        self._mode = stat.S_IMODE(os.fstat(self.at).st_mode)
        self._is_settled = False
        self._names = dict.fromkeys(self._listed() if os.listdir(self.at) else self._begun())

    # ---- the mark

    def _begun(self) -> List[str]:
        """Makes the mark in an empty folder."""
        try:
            self._write_mark([])
        except OSError:
            self._remove_if_new()
            raise
        return []

    def _lines(self) -> List[str]:
        """The lines of the mark, which is a plain file of this user; none where it is not."""
        with contextlib.suppress(OSError), os.fdopen(open_plain(MARK, self.at), encoding="utf-8", errors="replace") as file:
            if os.fstat(file.fileno()).st_uid == os.geteuid():
                return file.read().split("\n")
        return []

    def _listed(self) -> List[str]:
        """What the mark lists and is there; a folder without one is refused."""
        lines = self._lines()
        if lines[:1] != [FIRST_LINE]:
            raise WordsRefused(
                f"{self.path}: is there, and is no folder of results, since it has no mark ({MARK}) of this user; "
                f"{ANOTHER}, or remove this one yourself"
            )
        return [it for it in lines[1:] if NAME.fullmatch(it) and self._is_there(it)]

    def _write_mark(self, names: Iterable[str]) -> None:
        """Writes the mark, with a list of names."""
        self._put(MARK, ["".join(f"{it}\n" for it in [FIRST_LINE, *names]).encode()], 0o644)

    def claim(self, names: Iterable[str]) -> None:
        """Lists names before anything is made there; refused where something stands there that is not of runs."""
        with self._lock:
            new = [it for it in dict.fromkeys(names) if it not in self._names]
            for it in new:
                if self._is_there(it):
                    raise WordsRefused(
                        f"{self.path / it}: stands where results are to be written, and no run made it; move it away, or {ANOTHER}"
                    )
            if new:
                self._write_mark([*self._names, *new])
                self._names.update(dict.fromkeys(new))

    # ---- what is there

    @contextlib.contextmanager
    def _inside(self, name: str, make: bool = False) -> Iterator[int]:
        """The folder itself, or one in it, which is made where it is wanted."""
        if not name:
            yield self.at
            return
        try:
            found = open_folder(self.at, name)
        except OSError as why:
            if not make or why.errno not in (errno.ENOENT, errno.ENOTDIR, errno.ELOOP):
                raise
            self._clear_way(self.at, name)
            os.mkdir(name, dir_fd=self.at)
            found = open_folder(self.at, name)
        try:
            yield found
        finally:
            os.close(found)

    def _is_there(self, name: str) -> bool:
        """Whether anything has a name."""
        folder, leaf = os.path.split(name)
        try:
            with self._inside(folder) as at:
                os.stat(leaf, dir_fd=at, follow_symlinks=False)
            return True
        except OSError:
            return False

    def _clear_way(self, at: int, leaf: str) -> None:
        """Frees a name of ours. What stands there is removed; a folder that is not empty only gets another name."""
        try:
            is_folder = stat.S_ISDIR(os.stat(leaf, dir_fd=at, follow_symlinks=False).st_mode)
        except FileNotFoundError:
            return
        if not is_folder:
            os.unlink(leaf, dir_fd=at)
            return
        try:
            os.rmdir(leaf, dir_fd=at)
        except OSError:
            aside = f"{leaf}.moved-{secrets.token_hex(4)}"
            os.rename(leaf, aside, src_dir_fd=at, dst_dir_fd=at)
            self.notes.append(f"{self.path}: a folder stood in place of {leaf}; it is called {aside} now")

    # ---- what is read, written and removed

    def read(self, name: str, most: Optional[int] = None) -> Held:
        """What a file of ours holds; an OSError where no plain file is there, or it is larger than is said."""
        folder, leaf = os.path.split(name)
        if name not in self._names:
            raise OSError(f"{name}: no run made it")
        with self._inside(folder) as at, os.fdopen(open_plain(leaf, at), "rb") as file:
            return Held.of_file(name, file.fileno(), most)

    def write(self, what: Held, executable: bool = False, for_good: bool = False) -> None:
        """Writes a file under its name, whole or not at all. Where another process is in the way it is written once that is gone.

        What is large can be written anew then only if it is held for good.
        """
        self.claim([it for it in (os.path.dirname(what.name), what.name) if it])
        mode = 0o755 if executable else 0o644
        self._kept[what.name] = Kept(what.sum, mode, what if for_good or what.size <= SMALL else None)
        try:
            self._put(what.name, what.pieces(), mode)
        except OSError as why:
            if self._is_settled or why.errno not in SPOILT:
                raise

    def _put(self, name: str, pieces: Iterable[bytes], mode: int) -> None:
        """Writes a file beside, and then gives it its name."""
        folder, leaf = os.path.split(name)
        with self._lock:
            self._restore()
            self._clear_way(self.at, PART)
            into = os.open(PART, os.O_WRONLY | os.O_CREAT | os.O_EXCL | os.O_NOFOLLOW | os.O_CLOEXEC, mode, dir_fd=self.at)
            try:
                for piece in pieces:
                    write_all(into, piece)
                with self._inside(folder, make=True) as at:
                    try:
                        os.rename(PART, leaf, src_dir_fd=self.at, dst_dir_fd=at)
                    except IsADirectoryError:
                        self._clear_way(at, leaf)
                        os.rename(PART, leaf, src_dir_fd=self.at, dst_dir_fd=at)
            except BaseException:
                with contextlib.suppress(OSError):
                    os.unlink(PART, dir_fd=self.at)
                raise
            finally:
                os.close(into)

    def keep(self, folder: str, files: Sequence[Held]) -> Dict[str, str]:
        """Writes the files of a folder, in which no other file of ours stays; answers their sums."""
        names = {it.name for it in files}
        for it in [it for it in self._names if it.startswith(f"{folder}/") and it not in names]:
            self._remove(it)
        for held in files:
            self.write(held)
        return {it.name: it.sum for it in files}

    def _remove(self, name: str) -> None:
        """Removes a file of ours, or a folder of ours if nothing is in it; what else stands there stays."""
        self._kept.pop(name, None)
        folder, leaf = os.path.split(name)
        with contextlib.suppress(OSError), self._inside(folder) as at:
            if stat.S_ISDIR(os.stat(leaf, dir_fd=at, follow_symlinks=False).st_mode):
                os.rmdir(leaf, dir_fd=at)
            else:
                os.unlink(leaf, dir_fd=at)

    def clear(self) -> None:
        """Removes all that runs made; what is in a folder before that."""
        with self._lock:
            for it in sorted(self._names, key=lambda name: "/" not in name):
                self._remove(it)

    # ---- the end

    def settle(self) -> List[str]:
        """Once no other process writes here: each file that was kept is what was kept, and no other one of ours is there.

        Answers the names of those that cannot be written anew.
        """
        self._is_settled = True
        self._restore()
        for name in sorted(self._names, key=lambda it: "/" not in it):
            if name not in self._kept:
                self._remove(name)
        lost = [name for name, kept in sorted(self._kept.items()) if not self._stands(name, kept)]
        if not self._has_its_name():
            self.notes.append(f"{self.path}: was moved or replaced by another process while this went on")
        return lost

    def _restore(self) -> None:
        """Gives the folder the rights that it had."""
        if stat.S_IMODE(os.fstat(self.at).st_mode) != self._mode:
            os.fchmod(self.at, self._mode)

    def _stands(self, name: str, kept: Kept) -> bool:
        """Whether a file is what was kept, if need be since it was written anew."""
        try:
            folder, leaf = os.path.split(name)
            with self._inside(folder) as at, os.fdopen(open_plain(leaf, at), "rb") as file:
                if sum_of(file.fileno()) == kept.sum:
                    return True
        except OSError:
            pass
        spoilt = f"{self.path / name}: was spoilt by another process"
        try:
            if kept.text is None:
                raise OSError("it is large")
            self._put(name, kept.text.pieces(), kept.mode)
            self.notes.append(f"{spoilt}, and is written anew")
            return True
        except OSError as why:
            self.notes.append(f"{spoilt}, and cannot be written anew: {why.strerror or why}")
            self._remove(name)
            return False

    def _has_its_name(self) -> bool:
        """Whether the folder is still where it was."""
        try:
            return os.path.samestat(os.stat(self.path, follow_symlinks=False), os.fstat(self.at))
        except OSError:
            return False

    def end(self) -> None:
        """Lists what is there in the end; where nothing is, the folder is as it was before."""
        names = [it for it in self._names if self._is_there(it)]
        with contextlib.suppress(OSError):
            if names:
                if self._lines() != [FIRST_LINE, *names, ""]:
                    self._write_mark(names)
            else:
                self._remove_if_new()
        os.close(self.at)

    def _remove_if_new(self) -> None:
        """Removes the mark, and a folder that was made for it."""
        with contextlib.suppress(FileNotFoundError):
            os.unlink(MARK, dir_fd=self.at)
        if self._is_new and self._has_its_name():
            os.rmdir(self.path)
