"""What earlier runs of tools/wrong_bodies found, kept in ${XDG_CACHE_HOME:-~/.cache}/rummymaple/wrong_bodies.

Of a crate all of whose wrong bodies were refused it is kept why each was, under the sum of all that this
rests on, by contents: the toolchain, the scripts that try, the crate's line of crates.txt, its src, specs and
proofs, its wrong bodies, and the libraries below it as they lie in out/rlib. So nothing that is kept goes
stale: where anything has changed, so has the sum, and all of the crate is tried again. An entry is written
apart and then renamed, so a run that is killed keeps nothing half; one that is not whole counts for nothing.
"""

import functools
import hashlib
import json
import os
import pathlib
import tempfile

# What a check reads of a crate.
PARTS = ("src", "specs", "proofs")
# What it reads of the toolchain. The format of a library has the sum of the library's files.
OF_KIT = ("KIT-ID", "bin/rattle", "logic_built", "rattle/antt", "rattle/logic")
# How many entries of a crate stay, those that were used last.
MOST = 20


def files_at(place):
    """Returns the files at a place, which is a file, a folder, or nothing."""
    if place.is_file():
        return [place]
    walked = os.walk(place, followlinks=True)
    return sorted(pathlib.Path(at, name) for at, _, names in walked for name in names)


class Seen:
    """The files at some places of a folder: the sum of their names and contents."""

    def __init__(self, folder, places, are_linked=False):
        self.folder, self.places, self.are_linked = folder, places, are_linked
        self.marks = self.look()
        read = [(mark[0], hashlib.sha256((folder / mark[0]).read_bytes()).hexdigest()) for mark in self.marks]
        self.sum = hashlib.sha256(repr(read).encode()).hexdigest()

    def look(self):
        """Returns what tells whether a file was written, lost, added or exchanged, and be it put back."""
        found = [it for place in self.places for it in files_at(self.folder / place)]
        told = [(it.relative_to(self.folder).as_posix(), it.stat()) for it in found]
        # A library's files get more names while `rt ci` keeps them, and with each the last time changes.
        last = [0 if self.are_linked else it.st_ctime_ns for _, it in told]
        return [(path, it.st_ino, it.st_size, it.st_mtime_ns, at) for (path, it), at in zip(told, last)]

    def is_still(self):
        """Says whether what the sum was made of stands there now, and was not written meanwhile."""
        try:
            return self.look() == self.marks
        except OSError:
            return False


def own_folder():
    """Returns the folder of what is kept, made where it is not there, or None where there can be none."""
    cache = os.environ.get("XDG_CACHE_HOME", "")
    cache = cache if os.path.isabs(cache) else os.path.expanduser("~/.cache")
    folder = pathlib.Path(cache, "rummymaple", "wrong_bodies")
    try:
        folder.mkdir(mode=0o700, parents=True, exist_ok=True)
        # What another user may write is not taken over.
        is_own = os.path.isabs(folder) and folder.stat().st_uid == os.geteuid()
        return folder if is_own and not folder.stat().st_mode & 0o022 else None
    except OSError:
        return None


class Kept:
    """What is kept, for one toolchain and the scripts in this folder."""

    def __init__(self, kit):
        formats = sorted(it.relative_to(kit) for it in kit.glob("rlibs/*/format"))
        scripts = Seen(pathlib.Path(__file__).resolve().parent, ("wrong_bodies", "verdicts.py"))
        self.below_all = [scripts, Seen(kit, (*OF_KIT, *formats))]
        self.folder = own_folder()
        self.seen_at = functools.cache(Seen)

    def rests_on(self, crate):
        """Returns all files that a verdict on the crate rests on."""
        libraries = [(crate.folder.parent / low / "out/rlib", (f"{low}.rlib",), True) for low in crate.below]
        return [*self.below_all, *(self.seen_at(*it) for it in [(crate.folder, PARTS), *libraries])]

    def key(self, crate):
        """Returns the sum of all that a verdict on the crate rests on."""
        line = (crate.name, crate.is_static, crate.uses, crate.below)
        edits = [(it.name, it.text) for it in crate.edits]
        sums = [it.sum for it in self.rests_on(crate)]
        return hashlib.sha256(repr((line, edits, sums)).encode()).hexdigest()

    def place(self, crate):
        return self.folder / f"{crate.name}-{self.key(crate)}.json"

    def find(self, crate):
        """Returns why each wrong body of the crate was refused, by its name, or None where it is not kept."""
        if not self.folder:
            return None
        try:
            place = self.place(crate)
            found = json.loads(place.read_text())
            key, whys = found["key"], found["refused"]
            are_all = sorted(whys) == sorted(it.name for it in crate.edits)
            are_told = all(isinstance(it, str) and it for it in whys.values())
            if key != self.key(crate) or not are_all or not are_told:
                return None
            os.utime(place)
            return whys
        except (OSError, ValueError, KeyError, TypeError, AttributeError):
            return None

    def keep(self, crate, whys):
        """Keeps why each wrong body of the crate was refused, if what this rests on was left as it was."""
        if not self.folder or not all(whys.values()) or not all(it.is_still() for it in self.rests_on(crate)):
            return
        try:
            room, path = tempfile.mkstemp(prefix=f"new-{os.getpid()}-", dir=self.folder)
            with os.fdopen(room, "w") as file:
                json.dump({"key": self.key(crate), "refused": whys}, file)
            os.replace(path, self.place(crate))
            self.shrink(crate)
        except OSError:
            pass

    def shrink(self, crate):
        """Removes what killed runs left, and the entries of the crate that were not used for longest."""
        for it in self.folder.glob("new-*"):
            if not os.path.exists(f"/proc/{it.name.split('-')[1]}"):
                it.unlink(missing_ok=True)
        entries = sorted(self.folder.glob(f"{crate.name}-*.json"), key=lambda it: it.stat().st_mtime)
        for it in entries[:-MOST]:
            it.unlink(missing_ok=True)
