"""The runs that pages have asked for, and what was found out about them: the last ones stay, within bounds."""

import collections
import os
import shutil

from loop import Promise
from prepare import prepare
from runs import Run
from signs import Refused

SOURCE_MOST, SCRIPT_MOST, PACK_MOST = 4_000_000, 1_000_000, 8_000_000
LIMIT_MOST = 100_000_000
KEPT_MOST = 64_000_000      # bytes, about, of what is kept
RUNS_MOST, BASES_MOST = 40, 20


class Store:
    """Runs by their names. A page whose run was dropped sends its inputs again."""

    def __init__(self, loop, program, folder):
        self.loop, self.program, self.folder = loop, program, folder
        self.runs, self.bases = collections.OrderedDict(), collections.OrderedDict()
        self.kept, self.size = collections.OrderedDict(), 0
        self.busy = {}

    async def once(self, key, find, weight=200, is_kept=True):
        """What is kept by this name; else it is found by one of those who ask, and the others wait."""
        if key in self.kept:
            self.kept.move_to_end(key)
            return self.kept[key][0]
        if key in self.busy:
            return await self.busy[key]
        self.busy[key] = promise = Promise()
        try:
            found = await find()
        except BaseException as error:
            promise.keep(error=error)
            raise
        else:
            promise.keep(found)
        finally:
            del self.busy[key]
        if is_kept:
            self.keep(key, found, (weight(found) if callable(weight) else weight) + 200)
        return found

    def has(self, key):
        """Whether something is kept by this name, or about to be."""
        return key in self.kept or key in self.busy

    def keep(self, key, found, size):
        self.kept[key] = (found, size)
        self.size += size
        while self.size > KEPT_MOST and len(self.kept) > 1:
            _, (_, gone) = self.kept.popitem(last=False)
            self.size -= gone

    def folder_of(self, base):
        """The folder of the files of inputs. That of inputs that nobody has asked for lately is taken away."""
        folder = os.path.join(self.folder, base)
        try:
            os.makedirs(folder, exist_ok=True)
        except OSError as error:
            raise Refused(f"there is no room for the files of a run in {self.folder}: {error.strerror}", 507) from None
        self.bases.pop(base, None)
        self.bases[base] = folder
        while len(self.bases) > BASES_MOST:
            old, its_folder = self.bases.popitem(last=False)
            for name in [name for name, run in self.runs.items() if run.base == old]:
                del self.runs[name]
            shutil.rmtree(its_folder, ignore_errors=True)
        return folder

    async def make(self, inputs):
        """The run over these inputs."""
        if inputs.kind not in ("source", "deck") or inputs.core not in (20000, 40000, 60000):
            raise Refused("no such inputs")
        if inputs.kind == "source" and len(inputs.text) > SOURCE_MOST:
            raise Refused(f"a source has at most {SOURCE_MOST:,} bytes; this one has {len(inputs.text):,}", 413)
        if sum(len(line) + 1 for line in inputs.script) > SCRIPT_MOST:
            raise Refused(f"a script has at most {SCRIPT_MOST:,} bytes", 413)
        if inputs.pack and len(inputs.pack) > PACK_MOST:
            raise Refused(f"a pack has at most {PACK_MOST:,} bytes", 413)
        run = Run(self, inputs)
        if run.id in self.runs:
            return self.find(run.id)
        same = next((other for other in self.runs.values() if other.base == run.base), None)
        if same:
            run.prepared = same.prepared
        else:
            await prepare(run)
        self.runs[run.id] = run
        while len(self.runs) > RUNS_MOST:
            self.runs.popitem(last=False)
        return self.find(run.id)

    def find(self, name):
        if not isinstance(name, str):
            raise Refused("id is not a text")
        if name not in self.runs or not self.runs[name].refusal and self.runs[name].base not in self.bases:
            raise Refused("unknown run: send its inputs again", 410)
        self.runs.move_to_end(name)
        run = self.runs[name]
        if not run.refusal:
            self.bases.move_to_end(run.base)
        return run
