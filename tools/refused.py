"""Keeps which wrong implementations the prover has refused. tools/rounds.py does not judge them again until something
changes that the verdict depends on.

A verdict stands under the digest of all of that: the edit; the code, definitions and proofs of its crate and of every
crate below it, with what crates.txt says of them; the libraries of the crates below, as they are built; the prover, and
the line of `rt version`; the tools that judge. A change of any of these gives another digest, under which nothing is
kept.

The kit keeps what it has checked in crates/NAME/out/, but `rt ci` empties that folder. So the verdicts stand in
crnsim/refused/ of the user's folder of caches ($XDG_CACHE_HOME, else ~/.cache), for all clones of the repository. Each
is a file, which is written under another name and then renamed. It is checked when it is read: a damaged one counts as
none. One that no run has read for DAYS is removed.

Beside them, in crnsim/work/, stands what the last rounds of each crate have proved. The prover takes of it only what is
still up to date. So those few edits that are judged anew do not begin with a proof of all that they call.
"""
import functools
import hashlib
import json
import os
import subprocess
import tempfile
import time

from edits import TOP

# The tools that decide what a verdict is.
JUDGES = ("rounds.py", "edits.py", "refused.py")
# One verdict in so many is judged anew in each run, so that a wrong digest shows.
ONE_IN = 20
DAYS = 60


def sum_of(*parts):
    """Returns the SHA-256 of some texts, each with its length."""
    total = hashlib.sha256()
    for part in parts:
        data = part.encode() if isinstance(part, str) else part
        total.update(b"%d:" % len(data) + data)
    return total.hexdigest()


def sum_of_file(path):
    """Returns the SHA-256 of a file."""
    with open(path, "rb") as file:
        return hashlib.file_digest(file, "sha256").hexdigest()


def sum_of_files(folder, paths):
    """Returns the SHA-256 of files with their paths below a folder."""
    return sum_of(
        *[
            part
            for path in paths
            for part in (os.path.relpath(path, folder), sum_of_file(path))
        ]
    )


def files_below(folder):
    """Returns the files of a folder and of those in it, in order."""
    return sorted(f"{at}/{name}" for at, _, names in os.walk(folder) for name in names)


@functools.cache
def sum_of_library(path):
    """Returns the SHA-256 of a library as it was built."""
    return sum_of_files(path, files_below(path))


def cache_folder(part):
    """Returns the folder where the verdicts are kept (refused), or what their checks have proved (work)."""
    named = os.environ.get("XDG_CACHE_HOME", "")
    caches = named if os.path.isabs(named) else os.path.expanduser("~/.cache")
    return f"{caches}/crnsim/{part}"


def commit_of(top):
    """Returns the commit that is checked out, or "" outside of one."""
    words = ["git", "-C", top, "rev-parse", "--verify", "HEAD"]
    ran = subprocess.run(
        words, stdin=subprocess.DEVNULL, capture_output=True, text=True, check=False
    )
    return ran.stdout.strip() if ran.returncode == 0 else ""


class Refused:
    """The kept verdicts."""

    def __init__(self, kit, prover, is_anew):
        self.kit, self.folder, self.is_anew = kit, cache_folder("refused"), is_anew
        self.commit, self.fault = commit_of(TOP), ""
        version = subprocess.run(
            ["rt", "version"], stdin=subprocess.DEVNULL, capture_output=True, check=True
        ).stdout
        self.judges = sum_of(
            version,
            sum_of_file(prover),
            *[sum_of_file(f"{TOP}/tools/{it}") for it in JUDGES],
        )

    def digest(self, crate):
        """Returns the sum of all that the verdicts on a crate's edits depend on, but for the edits."""
        below = [
            part
            for it in crate.below()
            for part in (self.sources(it), sum_of_library(it.rlib))
        ]
        return sum_of(self.judges, self.sources(crate), *below)

    def sources(self, crate):
        """Returns the sum of a crate's files that a check reads, and of its line in crates.txt."""
        return sum_of(
            crate.name,
            repr(crate.said),
            sum_of_files(crate.folder, self.kit.files_of(crate.folder)),
        )

    def is_drawn(self, label):
        """Returns whether an edit is judged anew in this commit even if its verdict is kept."""
        return int(sum_of(self.commit, label), 16) % ONE_IN == 0

    def goal(self, key, label):
        """Returns the goal that was open when an edit was refused, or None if no verdict on it is kept."""
        path = f"{self.folder}/{key}"
        if self.is_anew or not os.path.exists(path):
            return None
        try:
            with open(path, encoding="utf-8") as file:
                kept = json.load(file)
            if kept["sum"] == sum_of(key, label, kept["goal"]):
                os.utime(path)
                return kept["goal"]
        except (OSError, ValueError, KeyError, TypeError, AttributeError):
            pass
        print(
            f"{label}: its kept verdict is damaged, and is removed: {path}", flush=True
        )
        self.drop(key)
        return None

    def keep(self, key, label, goal):
        """Keeps a verdict. If that fails, the edit is judged again in the next run."""
        kept = {"edit": label, "goal": goal, "sum": sum_of(key, label, goal)}
        try:
            os.makedirs(self.folder, exist_ok=True)
            handle, path = tempfile.mkstemp(prefix="new-", dir=self.folder)
            with open(handle, "w", encoding="utf-8") as file:
                json.dump(kept, file)
            os.replace(path, f"{self.folder}/{key}")
        except OSError as fault:
            self.fault = f"verdicts cannot be kept in {self.folder}: {fault.strerror}"

    def drop(self, key):
        """Removes a verdict, and returns whether there was one."""
        try:
            os.remove(f"{self.folder}/{key}")
        except OSError:
            return False
        return True

    def remove_old(self):
        """Removes the verdicts that no run has read for a long time."""
        oldest = time.time() - DAYS * 24 * 3600
        for path in files_below(self.folder):
            # Another run may have removed it.
            if os.path.exists(path) and os.path.getmtime(path) < oldest:
                self.drop(os.path.basename(path))
