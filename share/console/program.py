"""Calls of the program: words and files, each call in a folder of its own that is gone afterwards, and within bounds."""

import collections
import os
import re
import resource
import shutil
import signal
import tempfile

from loop import Promise
from signs import Refused, to_text
from told import ASKING, parted

FILE_MOST = 64_000_000      # bytes that a run may write to one file
STREAM_MOST = 200_000_000   # bytes that a run may print
SECONDS_MOST = 30           # of one run that a page asks for
SECONDS_OF_RECORD = 600     # of one run for a record, which nobody waits for at a page
CODES_OF_HOST = (7, 8)

Result = collections.namedtuple("Result", "code out said told files")


def bound_files():
    """No file may be longer than this, neither one of the program's nor one of ours. The children inherit it."""
    soft, hard = resource.getrlimit(resource.RLIMIT_FSIZE)
    if soft == resource.RLIM_INFINITY or soft > FILE_MOST:
        resource.setrlimit(resource.RLIMIT_FSIZE, (FILE_MOST, hard))


class Program:
    """The program at a path. At most so many calls run at once; the others wait, first come, first served."""

    def __init__(self, loop, path, folder, seconds=SECONDS_MOST):
        self.loop, self.path, self.folder, self.seconds = loop, path, folder, seconds
        self.calls = 0
        self.environment = {**os.environ, **ASKING}
        self.free = max(2, os.cpu_count() or 2)
        self.waiting = collections.deque()

    def is_idle(self):
        return self.free > 1 and not self.waiting

    async def call(self, command, inputs, words=(), outputs=()):
        """Inputs are bytes, or the path of a file that is kept, by the name of their option; outputs are the options whose files are returned."""
        while self.free == 0:
            turn = Promise()
            self.waiting.append(turn)
            await turn
        self.free -= 1
        try:
            return await self.call_now(command, inputs, words, outputs)
        except OSError as error:
            raise Refused(f"there is no room for the files of a run in {self.folder}: {error.strerror}", 507) from None
        finally:
            self.free += 1
            if self.waiting:
                self.waiting.popleft().keep()

    async def call_now(self, command, inputs, words, outputs):
        folder = tempfile.mkdtemp(dir=self.folder)
        try:
            line = [self.path, command]
            for name, value in inputs.items():
                path = value
                if not isinstance(value, str):
                    path = os.path.join(folder, name)
                    with open(path, "wb") as file:
                        file.write(value)
                line += [f"--{name}", path]
            line += [str(word) for word in words]
            for name in outputs:
                if name not in inputs:
                    line += [f"--{name}", os.path.join(folder, name)]
            self.calls += 1
            return self.result(await self.begin(line, folder), folder, outputs)
        finally:
            shutil.rmtree(folder, ignore_errors=True)

    def begin(self, line, folder):
        try:
            return self.loop.call(line, folder, self.seconds, STREAM_MOST, self.environment)
        except OSError as error:
            raise Refused(f"the program {self.path} does not start: {error.strerror}", 503) from None

    def look_at(self, is_as_ours):
        """Refuses a program that does not answer as this console's own, for instance without the console's line."""
        if not is_as_ours:
            raise Refused(f"{self.path} does not answer as ibm1620 of this version does; see which program IBM1620 names", 503)

    def result(self, ended, folder, outputs):
        """What a call has come to, or why there is nothing of it."""
        told, said = parted([line[9:] for line in to_text(ended.err).split("\n") if line.startswith("ibm1620: ")])
        # The names of the console's own folders are of no use to the reader.
        said = [re.sub(re.escape(self.folder) + r"/[^\s:,]*", "", line).replace(" : ", ": ") for line in said]
        why = "; ".join(said)
        if ended.long:
            raise Refused(f"the run prints more than {STREAM_MOST // 1000000} MB: give it a smaller limit of steps, or use ibm1620 itself", 413)
        if ended.late:
            raise Refused(f"the run took over {self.seconds} seconds and was ended: give it a smaller limit of steps, or use ibm1620 itself", 504)
        if ended.code == -signal.SIGXFSZ or (ended.code in CODES_OF_HOST and "File too large" in why):
            raise Refused(f"the run writes more than {FILE_MOST // 1000000} MB to a file: give it a smaller limit of steps, or use ibm1620 itself",
                          413)
        if ended.code < 0:
            raise Refused(f"the program was ended by signal {-ended.code}", 503)
        if ended.code in CODES_OF_HOST:
            raise Refused("the run could not be carried out: " + (why or "a file failed"), 507)
        files = {}
        for name in outputs:
            try:
                with open(os.path.join(folder, name), "rb") as file:
                    files[name] = file.read()
            except OSError:
                files[name] = b""
        return Result(ended.code, ended.out, said, told, files)
