"""Runs of `loop` and `dump`, and what stands in folders: for the tools that try them from outside."""

import collections
import hashlib
import os
import stat
import subprocess

from folder_store import NotCreated, OldFormat, Store, files_in
from lab_texts import Broken, expect

# What a run ended with, and what it printed.
Ended = collections.namedtuple("Ended", "status out err")
NOT_CREATED = Ended(1, "", "dump: not created\n")


def ended(words, script="", **more):
    """A whole run of these words, which has a script as its input."""
    done = subprocess.run(words, input=script.encode(), capture_output=True, **more)
    return Ended(done.returncode, done.stdout.decode(), done.stderr.decode())


def looped(program, folder, script):
    """A whole run of a script by `loop` over the folders in this one."""
    return ended([program, "loop", "-", "--dir", folder], script)


def look_of(path):
    """What stands at one path: its kind and mode, the time of its last change, and its bytes."""
    told = os.lstat(path)
    content = b""
    if stat.S_ISREG(told.st_mode):
        with open(path, "rb") as file:
            content = file.read()
    return told.st_mode, told.st_mtime_ns, hashlib.sha256(content).hexdigest()


def listing(path):
    """All that stands at a path and below it, by names."""
    path = os.fsencode(path)
    found = {b"": look_of(path)} if os.path.lexists(path) else {}
    for folder, folders, files in os.walk(path):
        for name in (*folders, *files):
            at = os.path.join(folder, name)
            found[os.path.relpath(at, path)] = look_of(at)
    return found


def store_in(folder):
    """The store of a node's folder, or None where none was created. Damage is Broken."""
    try:
        store = Store(files_in(folder))
    except (NotCreated, FileNotFoundError):
        return None
    except OldFormat as old:
        raise Broken(f"{folder}: old format") from old
    expect(not store.faults, f"{folder}: {'; '.join(store.faults)}")
    return store


def dumped_store(program, folder):
    """The store of a node's folder, as `store_in` has it. `dump` prints the same, and changes nothing
    there."""
    before = listing(folder)
    told = ended([program, "dump", folder])
    expect(listing(folder) == before, f"{folder}: dump changed it")
    store = store_in(folder)
    wanted = NOT_CREATED if store is None else Ended(0, store.text(), "")
    expect(told == wanted, f"{folder}: dump says {told}, the reader {wanted}")
    return store
