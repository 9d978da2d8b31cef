"""Files that are written whole or not at all."""
from __future__ import annotations

import os
from pathlib import Path


class NewFile:
    """A file that is written to another name in the same folder. `take_place` gives it its own name, in place of what stood there."""

    def __init__(self, path: Path, data: bytes) -> None:
        self._path = path.resolve()
        self._new = self._path.with_name(self._path.name + ".new")
        try:
            with open(self._new, "wb") as out:
                out.write(data)
                out.flush()
                os.fsync(out.fileno())
        except OSError:
            self.drop()
            raise

    def take_place(self) -> None:
        os.replace(self._new, self._path)
        folder = os.open(self._path.parent, os.O_RDONLY)
        try:
            os.fsync(folder)
        finally:
            os.close(folder)

    def drop(self) -> None:
        """Removes what was written, where it did not take its place."""
        try:
            self._new.unlink()
        except OSError:
            pass


def write_whole(path: Path, data: bytes) -> None:
    """Writes a file to another name, and gives it its own when all of it is on the disk."""
    NewFile(path, data).take_place()
