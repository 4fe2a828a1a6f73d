"""What gates on this machine refused, so that the next gate tries only what was changed since."""

import hashlib
import os
import stat
import tempfile
import time
from pathlib import Path

from edit_crates import CRATES, PARTS, TOP

# The code by which an edit is judged.
SCRIPTS = ("edits.py", "edit_crates.py", "edit_store.py", "edit_trial.py", "rust_items.py", "../quick_rt.py")
JUDGES = [TOP / "tests" / name for name in SCRIPTS]
# The most entries, of a few hundred bytes each.
MOST = 20_000


class Store:
    """A folder with a file for each edit that was refused. Its name is a sum of all that the check read: the kit, the code
    that judges, the lines of crates.txt and the files of the crate and of all below it, and the edit. Nothing but refusals
    is kept, and nothing where one of those files was touched since the gate began."""

    def __init__(self, kit, place=None):
        self.begun = time.time()
        self.place = place or place_beside(kit.folder)
        self.base = hashlib.sha256(repr([of_kit(kit.folder), [file.read_bytes() for file in JUDGES]]).encode())
        self.own, self.sums, self.touched = {}, {}, {}
        self.shrink()

    def name(self, crate, edit):
        """The name of an entry."""
        if crate not in self.sums:
            made = self.base.copy()
            made.update(repr([self.own_sum(one) for one in (crate, *crate.below)]).encode())
            self.sums[crate] = made
        made = self.sums[crate].copy()
        made.update(repr((edit.name, edit.text)).encode())
        return made.hexdigest()

    def own_sum(self, crate):
        """A sum of a crate's line of crates.txt and of its files."""
        if crate not in self.own:
            made = hashlib.sha256(repr((crate.name, crate.of_kit, [one.name for one in crate.own])).encode())
            for file in files_of(crate):
                if file.is_file():
                    made.update(repr((str(file.relative_to(crate.folder)), file.read_bytes())).encode())
            self.own[crate] = made.hexdigest()
        return self.own[crate]

    def is_untouched(self, crate):
        """Whether no file was touched since the gate began that a check of this crate reads."""
        read = [file for one in (crate, *crate.below) for file in files_of(one)]
        try:
            return all(file.lstat().st_ctime < self.begun for file in (CRATES.parent / "crates.txt", *read))
        except OSError:
            return False

    def holds(self, crate, edit):
        """Whether an earlier gate refused an edit."""
        if self.place is None:
            return False
        try:
            os.utime(self.place / self.name(crate, edit))
        except OSError:
            return False
        return self.is_untouched(crate)

    def keep(self, crate, refused):
        """Keeps that edits were refused, each with the goal."""
        if self.place is None or not refused or not self.is_untouched(crate):
            return
        for edit, goal in refused:
            try:
                with tempfile.NamedTemporaryFile("w", dir=self.place, prefix="new-", delete=False, encoding="utf-8") as entry:
                    entry.write(f"{crate.name}/{edit.name}: {goal}\n")
                os.replace(entry.name, self.place / self.name(crate, edit))
            except OSError:
                # The disk is full, say: the next gate tries it again.
                return

    def shrink(self):
        """Removes the entries that were longest of no use."""
        entries = []
        for entry in self.place.iterdir() if self.place else ():
            try:
                entries.append((entry.stat().st_mtime, entry))
            except OSError:
                pass
        for _, entry in sorted(entries)[: max(0, len(entries) - MOST)]:
            entry.unlink(missing_ok=True)


def files_of(crate):
    """What a check reads of a crate, with the folders, in order."""
    return [file for part in PARTS for folder in [crate.folder / part] if folder.is_dir() for file in (folder, *sorted(folder.rglob("*")))]


def of_kit(kit):
    """What tells one toolchain from another: the bytes of the files that name it, and of each file that a check reads its
    mode, size and time."""
    lines = [(kit / name).read_bytes() for name in ("KIT-ID", "bin/rt", "bin/rtlib.py")]
    # A library's other files are held to the sum in its format.
    libraries = [f"rlibs/{name}/toolchain" for name in sorted(os.listdir(kit / "rlibs"))]
    for part in ("bin", "logic_built", "rattle/logic", *libraries):
        for at, folders, files in os.walk(kit / part):
            folders.sort()
            for name in sorted(files):
                found = os.lstat(f"{at}/{name}")
                lines.append(f"{at[len(str(kit)):]}/{name} {found.st_mode} {found.st_size} {found.st_mtime_ns}")
    return lines + [file.read_bytes() for file in sorted(kit.glob("rlibs/*/format"))]


def place_beside(kit):
    """A folder of this user's that no other can write: beside the toolchain, or else in the cache; or None."""
    cache = Path(os.environ.get("XDG_CACHE_HOME") or Path.home() / ".cache")
    for place in (kit.parent / "rattle-kept-edits", cache / "wfhost-edits"):
        try:
            place.mkdir(mode=0o700, parents=True, exist_ok=True)
            found = place.lstat()
        except OSError:
            continue
        if stat.S_ISDIR(found.st_mode) and found.st_uid == os.geteuid() and not found.st_mode & 0o022 and os.access(place, os.W_OK):
            return place
    return None
