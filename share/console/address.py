"""The file of --address: a page for this user alone that leads a browser to the console. So no list of processes and no screen shows the address."""

import os
import re
import stat
import tempfile

HEAD = "<!DOCTYPE html>\n<!-- This page leads to the console of an IBM 1620. Its address is for you alone. -->\n"
PAGE = HEAD + """<meta charset="utf-8"><meta name="referrer" content="no-referrer"><meta http-equiv="refresh" content="0; url={}">
<title>IBM 1620</title>
"""
TOKEN = re.compile(r"url=http://127\.0\.0\.1:\d+/([0-9a-f]{24})/")


def read_token(path):
    """The token in a file that a console wrote before: a page that is still open then finds the next console. None if there is no such file, or if
    others may have read it. A file that no console wrote is refused, since it would be lost."""
    try:
        status = os.lstat(path)
    except FileNotFoundError:
        return None
    if not stat.S_ISREG(status.st_mode):
        raise FileExistsError(17, "is not a regular file")
    with open(path, encoding="ascii", errors="replace") as file:
        text = file.read(len(PAGE) + 100)
    if not text.startswith(HEAD):
        raise FileExistsError(17, "is there already, and no console wrote it; name a new file")
    found = TOKEN.search(text)
    return found[1] if found and status.st_uid == os.getuid() and stat.S_IMODE(status.st_mode) == 0o600 else None


def write_address(path, address):
    """Writes the file whole, with mode 0600, or not at all."""
    handle, made = tempfile.mkstemp(prefix=".ibm1620-", dir=os.path.dirname(os.path.abspath(path)))
    try:
        with open(handle, "w", encoding="ascii") as file:
            file.write(PAGE.format(address))
        os.replace(made, path)
    except BaseException:
        os.unlink(made)
        raise
