"""The folder for the files of the runs. It is locked as long as its console runs; a console that starts takes away those that nobody has locked, which
consoles that were killed have left."""

import fcntl
import os
import shutil
import tempfile

PREFIX = "ibm1620-runs-"


def make_folder():
    """A new folder, and its lock, which the end of this process opens."""
    base = os.environ.get("TMPDIR") or tempfile.gettempdir()
    clear_remains(base)
    while True:
        folder = tempfile.mkdtemp(prefix=PREFIX, dir=base)
        lock = lock_of(folder)
        if lock is not None:        # else another console that has just started took it for a remainder
            return folder, lock


def lock_of(folder):
    """The folder as an open file that is locked, or None if another process has locked it or taken it away."""
    try:
        handle = os.open(folder, os.O_RDONLY | os.O_DIRECTORY | os.O_NOFOLLOW)
    except OSError:
        return None
    try:
        fcntl.flock(handle, fcntl.LOCK_EX | fcntl.LOCK_NB)
        if os.fstat(handle).st_nlink:
            return handle
    except OSError:
        pass
    os.close(handle)
    return None


def clear_remains(base):
    """Takes away the folders of this user's consoles that run no more."""
    with os.scandir(base) as entries:
        found = [entry.path for entry in entries if entry.name.startswith(PREFIX) and entry.stat(follow_symlinks=False).st_uid == os.getuid()]
    for folder in found:
        lock = lock_of(folder)
        if lock is not None:
            shutil.rmtree(folder, ignore_errors=True)
            os.close(lock)
