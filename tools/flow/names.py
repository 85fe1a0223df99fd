"""Names of files on their way to Yosys, which takes names apart: it expands patterns, and runs what stands behind `!`.

A plain name goes as it is. For any other there is a link with a plain name in a private folder, and what Yosys says of that link
is told by the name of the user.
"""
import os
import re
from pathlib import Path
from typing import Dict

from .program import Broke

PLAIN = re.compile(r"[\w./][\w./+-]*\Z", re.ASCII)
# A line of Yosys's has a place, and may have more behind it.
PLACE_END = r":\d+(?:\.\d+)?(?:-\d+\.\d+)?"


def printable(name: str) -> str:
    """A name for a reader, whatever signs are in it."""
    return "".join(it if it.isprintable() else "?" for it in os.fsencode(name).decode("utf-8", "replace"))


class Names:
    """Plain names for files and folders, in a private folder."""

    def __init__(self, folder: Path) -> None:
        if not PLAIN.match(str(folder)):
            raise Broke(f"{folder}: the folder for what is temporary has signs that Yosys takes apart; name another one by TMPDIR")
        self.folder = folder.resolve()
        self._links: Dict[str, str] = {}

    def own(self, name: str) -> str:
        """A file in the private folder."""
        return f"{self.folder}/{name}"

    def plain(self, path: Path) -> str:
        """The name by which Yosys is told a file or a folder."""
        if PLAIN.match(str(path)):
            return str(path)
        found = [link for link, name in self._links.items() if name == str(path)]
        return found[0] if found else self._linked(path)

    def _linked(self, path: Path) -> str:
        """A new link to it; a file keeps the end of its name, by which Yosys might go."""
        end = path.suffix if PLAIN.match(f"a{path.suffix}") else ""
        link = self.own(f"n{len(self._links)}{end}")
        os.symlink(path.resolve(), link)
        self._links[link] = str(path)
        return link

    def beside(self, path: Path) -> str:
        """The folder of a file whose name is not plain, since what it includes from beside it is not beside its link."""
        return self.plain(path.parent) if not PLAIN.match(str(path)) else ""

    def told(self, text: str) -> str:
        """What Yosys says, with the names of the user in it."""
        for link in sorted(self._links, key=len, reverse=True):
            text = text.replace(link, printable(self._links[link]))
        return text.replace(f"{self.folder}/", "")
