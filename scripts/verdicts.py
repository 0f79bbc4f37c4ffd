"""Verdicts on wrong bodies, kept on this machine by the checksum of all that they were made from. Of a body that the prover refuses:
the edit, the sources of its crate and of those below it, the built libraries of these, their lines of crates.txt, the scripts that
try it, and the kit."""

import contextlib
import functools
import hashlib
import json
import os
import pathlib
import subprocess
import tempfile
import time

HERE = pathlib.Path(__file__).resolve().parent
# The scripts that try a body.
TRYING = ("wrong_bodies", "verdicts.py", "edits.py", "rattle_text.py", "proof_text.py", "crates.py")
# So many are kept: those longest unused go first.
MOST = 10_000
# What a run that was killed left is removed after so many seconds.
LEFT_OVER = 86_400


def user_cache():
    """The folder of the user's own for what can be made again, if there is one."""
    named = os.environ.get("XDG_CACHE_HOME", "")
    with contextlib.suppress(RuntimeError):
        return pathlib.Path(named) if os.path.isabs(named) else pathlib.Path.home() / ".cache"
    return None


class Store:
    """A folder of verdicts in the user's cache, each by the checksum of all that it was made from."""

    def __init__(self, name):
        cache = user_cache()
        self.at = cache and cache / "kroft" / name

    def kept(self, name, kinds):
        """The verdict of this name, if one of these kinds is kept, and its reason. It counts as used now."""
        if self.at is None:
            return None
        with contextlib.suppress(OSError, ValueError, KeyError, TypeError):
            found = json.loads((self.at / name).read_text(encoding="utf-8"))
            if found["name"] == name and found["kind"] in kinds and isinstance(found["why"], str):
                os.utime(self.at / name)
                return found["kind"], found["why"]
        return None

    def keep(self, verdicts):
        """Keeps these, each a name, a kind and a reason. (What can't be written, on a full disk say, isn't kept.)"""
        if self.at is None or not verdicts:
            return
        with contextlib.suppress(OSError):
            self.at.mkdir(parents=True, exist_ok=True)
            for name, kind, why in verdicts:
                with tempfile.NamedTemporaryFile("w", prefix="new-", dir=self.at, delete=False, encoding="utf-8") as file:
                    json.dump({"name": name, "kind": kind, "why": why}, file)
                os.replace(file.name, self.at / name)
            self.shrink()

    def shrink(self):
        """Removes what is too much, and what runs that were killed left."""
        files = []
        with os.scandir(self.at) as found:
            for it in found:
                with contextlib.suppress(OSError):
                    files.append((it.stat().st_mtime, it.path, it.name.startswith("new-")))
        kept = sorted((used, path) for used, path, is_new in files if not is_new)
        over = [path for _, path in kept[: max(0, len(kept) - MOST)]]
        over += [path for used, path, is_new in files if is_new and used < time.time() - LEFT_OVER]
        for path in over:
            with contextlib.suppress(OSError):
                os.remove(path)


def sum_of_kit():
    """What the kit says that it is."""
    return subprocess.run(["rt", "version"], capture_output=True, check=True).stdout


def note_files(found, folder, files):
    """Takes files into a checksum, by their names below a folder and what they hold."""
    for file in sorted(files):
        data = file.read_bytes()
        found.update(f"{file.relative_to(folder).as_posix()} {len(data)}\n".encode())
        found.update(data)


@functools.lru_cache(maxsize=None)
def of_the_tools():
    """What the kit says that it is, and the scripts that try a body."""
    return repr([sum_of_kit(), *((HERE / it).read_bytes() for it in TRYING)]).encode()


class Verdicts:
    """The kept verdicts of one crate's bodies."""

    def __init__(self, crates, crate):
        self.crates, self.crate, self.store = crates, crate, Store("wrong_bodies")
        self.sum = self.sum_now()

    def sum_now(self):
        """The checksum of what a verdict stands on, beside the edit."""
        found = hashlib.sha256(of_the_tools())
        for crate in [self.crate, *sorted(self.crates.below(self.crate), key=lambda it: it.name)]:
            found.update(repr((crate.name, crate.kind, crate.uses)).encode())
            files = [it for part in ("src", "specs", "proofs") for it in (crate.folder / part).rglob("*") if it.is_file()]
            # (a library that isn't of these sources is another one: its format has the sums of all its files)
            files += [it for it in [crate.rlib / "format"] if crate is not self.crate and it.is_file()]
            note_files(found, crate.folder, files)
        return found.hexdigest()

    def name(self, edit):
        return hashlib.sha256(repr((self.sum, edit.says())).encode()).hexdigest()

    def kept(self, edit, kinds):
        """The verdict on this edit, if one of these kinds is kept, and its reason."""
        return self.store.kept(self.name(edit), kinds)

    def keep(self, verdicts):
        """Keeps these: of each an edit, the kind and the reason. None, if a source was changed meanwhile."""
        if verdicts and self.sum_now() == self.sum:
            self.store.keep([(self.name(edit), kind, why) for edit, kind, why in verdicts])
