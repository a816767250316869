"""Programs of this tree that are kept, and whether one was made of the tree's files as they are now.

Beside a program, `NAME.sums` has a line `PATH SUM` for each crate that it was made of, and one for the program. Sums are of contents, so a branch that is left and
returned to needs no new program. `NAME.compared` is an empty file with the time at which the sums were last found to be the same.
"""
import contextlib
import hashlib
import os
import pathlib
import shutil
import sys

TREE = pathlib.Path(__file__).resolve().parents[2]


def listed():
    """Returns the libraries that crates.txt gives each crate, those of the toolchain among them."""
    rows = (line.partition("#")[0].partition(":") for line in (TREE / "crates.txt").read_text().splitlines())
    return {head.split()[0]: libraries.split() for head, colon, libraries in rows if colon}


def crates_of(crate):
    """Returns the crates that a crate is made of, itself last, each after those that it uses."""
    uses, found = listed(), []

    def take(name):
        if name in uses and name not in found:
            for it in uses[name]:
                take(it)
            found.append(name)

    take(crate)
    return found


def found_kit():
    """Returns the folder of Rattle's kit, by its command `rt`."""
    rt = shutil.which("rt")
    if rt is None:
        sys.exit("no command rt: put the folder bin of Rattle's kit on the path")
    return pathlib.Path(rt).resolve().parents[1]


class Kept:
    """A program of a crate that is made of these parts (`src`, `specs`, `proofs`) of the crates that it uses."""

    def __init__(self, program, crate, parts):
        self.program = pathlib.Path(program)
        self.crates, self.parts, self.uses = crates_of(crate), parts, listed()

    def beside(self, ending):
        return self.program.with_name(self.program.name + ending)

    def files(self, crate):
        """Returns the files and the folders of a crate's parts, in a fixed order."""
        folders = [TREE / "crates" / crate / part for part in self.parts]
        return sorted(it for folder in folders if folder.is_dir() for it in (folder, *folder.rglob("*")))

    def sum_of(self, crate):
        """Returns the sum of a crate: of the libraries that it uses, and of its files."""
        whole = hashlib.sha256(repr(self.uses[crate]).encode())
        for file in self.files(crate):
            if file.is_file():
                whole.update(f"\n{file.relative_to(TREE)} {hashlib.sha256(file.read_bytes()).hexdigest()}".encode())
        return whole.hexdigest()

    def sums(self):
        """Returns the sums of the crates as they are now, by their paths."""
        return {f"crates/{crate}": self.sum_of(crate) for crate in self.crates}

    def whole(self, sums):
        """Returns the text of `NAME.sums` for these sums of crates and the program as it is now."""
        rows = {**sums, os.path.relpath(self.program, TREE): hashlib.sha256(self.program.read_bytes()).hexdigest()}
        return "".join(f"{path} {it}\n" for path, it in rows.items())

    def is_of_tree(self):
        """Whether the program is there and was made of the tree as it is."""
        if not (os.access(self.program, os.X_OK) and self.beside(".sums").exists()):
            return False
        # (what changes while sums are compared is newer than this file; in a tree that cannot be written they are compared at each call)
        begun = self.beside(f".{os.getpid()}")
        with contextlib.suppress(OSError):
            begun.touch()
        is_same = self.beside(".sums").read_text() == self.whole(self.sums())
        with contextlib.suppress(OSError):
            if is_same:
                begun.replace(self.beside(".compared"))
            else:
                begun.unlink()
        return is_same

    def note(self, sums):
        """Notes that the program was made of crates with these sums."""
        part = self.beside(f".{os.getpid()}")
        part.write_text(self.whole(sums))
        part.replace(self.beside(".sums"))
        return self.is_of_tree()
