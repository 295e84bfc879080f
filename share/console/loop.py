"""One loop over sockets and child processes. Work is written as coroutines, which wait for a `Promise`; there are no threads."""

import collections
import errno
import heapq
import itertools
import os
import selectors
import signal
import subprocess
import time


class Promise:
    """A value that comes later: waited for by any number of coroutines, and kept by one."""

    def __init__(self):
        self.is_kept = False
        self.value = self.error = None
        self.waiting = []

    def keep(self, value=None, error=None):
        if self.is_kept:
            return
        self.is_kept, self.value, self.error = True, value, error
        waiting, self.waiting = self.waiting, []
        for call in waiting:
            call()

    def then(self, call):
        if self.is_kept:
            call()
        else:
            self.waiting.append(call)

    def __await__(self):
        if not self.is_kept:
            yield self
        if self.error is not None:
            raise self.error
        return self.value


class Late(Exception):
    """What was waited for has not come in time."""


Ended = collections.namedtuple("Ended", "code out err late long")


class Loop:
    """Goes on until a signal comes, or until the work is done that it was given."""

    def __init__(self):
        self.selector = selectors.DefaultSelector()
        self.ready = collections.deque()
        self.timers, self.numbers = [], itertools.count()
        self.children = set()
        self.stopped = 0
        self.bell, bell = os.pipe2(os.O_NONBLOCK | os.O_CLOEXEC)
        signal.set_wakeup_fd(bell, warn_on_full_buffer=False)
        for number in (signal.SIGINT, signal.SIGTERM, signal.SIGHUP):
            if signal.getsignal(number) is not signal.SIG_IGN:
                signal.signal(number, self.stop)
        self.selector.register(self.bell, selectors.EVENT_READ, lambda _: self.hear())

    def stop(self, number, _):
        self.stopped = self.stopped or number

    def hear(self):
        try:
            os.read(self.bell, 4096)
        except BlockingIOError:
            pass

    # Work

    def start(self, work):
        """Begins a coroutine, and promises what it returns."""
        promise = Promise()
        self.ready.append(lambda: self.go_on(work, promise))
        return promise

    def go_on(self, work, promise):
        try:
            awaited = work.send(None)
        except StopIteration as end:
            promise.keep(end.value)
        except Exception as error:      # whoever waits for the promise has it
            promise.keep(error=error)
        else:
            awaited.then(lambda: self.ready.append(lambda: self.go_on(work, promise)))

    def at(self, when, call):
        """Calls once the time has come. What is returned can be given to `forget`."""
        timer = [when, next(self.numbers), call]
        heapq.heappush(self.timers, timer)
        return timer

    @staticmethod
    def forget(timer):
        timer[2] = None

    def run(self, work=None):
        """Runs until the work is done, and returns what it returns; without any until a signal comes. Where a signal has come, returns None."""
        promise = self.start(work) if work else Promise()
        while not promise.is_kept and not self.stopped:
            while self.ready and not self.stopped:
                self.ready.popleft()()
            if promise.is_kept or self.stopped:
                break
            while self.timers and self.timers[0][2] is None:
                heapq.heappop(self.timers)
            patience = max(0, self.timers[0][0] - time.monotonic()) if self.timers else None
            for key, events in self.selector.select(patience):
                key.data(events)
            while self.timers and self.timers[0][0] <= time.monotonic():
                call = heapq.heappop(self.timers)[2]
                if call:
                    call()
        if promise.is_kept and promise.error is not None:
            raise promise.error
        return promise.value

    def close(self):
        """Ends the children that still run."""
        for child in list(self.children):
            end_child(child)
            child.wait()

    # Sockets

    def when(self, file, events, seconds):
        """Promises to be kept once the file can be read or written; after so many seconds it fails with `Late`."""
        promise = Promise()

        def happened(_=None, error=None):
            self.forget(timer)
            try:
                self.selector.unregister(file)
            except (KeyError, ValueError):
                pass
            promise.keep(error=error)
        timer = self.at(time.monotonic() + seconds, lambda: happened(error=Late()))
        self.selector.register(file, events, happened)
        return promise

    # Child processes

    def call(self, words, folder, seconds, most, environment):
        """Starts a process, and promises how it ended: its code, the standard output, the first 64 KB of the standard error, and whether it
        was ended here, for it took too long or printed more than so many bytes."""
        child = subprocess.Popen(words, stdin=subprocess.DEVNULL, stdout=subprocess.PIPE, stderr=subprocess.PIPE, cwd=folder, bufsize=0,
                                 env=environment, start_new_session=True)
        return Call(self, child, seconds, most).promise


class Call:
    """A process that runs, and what it has printed. Once it has ended nothing refers to this any more: what it has printed may be long."""

    def __init__(self, loop, child, seconds, most):
        self.loop, self.child, self.most = loop, child, most
        self.promise, self.texts = Promise(), {"out": [], "err": []}
        self.size, self.files_open = 0, 2
        self.is_late = self.is_long = False
        loop.children.add(child)
        self.timer = loop.at(time.monotonic() + seconds, self.too_late)
        for name, file in (("out", child.stdout), ("err", child.stderr)):
            os.set_blocking(file.fileno(), False)
            loop.selector.register(file, selectors.EVENT_READ, lambda _, file=file, name=name: self.read(file, name))

    def too_late(self):
        self.is_late = True
        end_child(self.child)

    def read(self, file, name):
        try:
            piece = os.read(file.fileno(), 1 << 16)
        except OSError as error:
            if error.errno in (errno.EAGAIN, errno.EINTR):
                return
            piece = b""
        if not piece:
            self.loop.selector.unregister(file)
            file.close()
            self.files_open -= 1
            if not self.files_open:
                self.reap()
            return
        if name == "out":
            self.size += len(piece)
            if self.size > self.most:
                self.is_long = True
                end_child(self.child)
                return
        elif sum(map(len, self.texts[name])) > 65536:
            return
        self.texts[name].append(piece)

    def reap(self):
        if self.child.poll() is None:
            self.loop.at(time.monotonic() + .002, self.reap)
            return
        self.loop.forget(self.timer)
        self.loop.children.discard(self.child)
        self.promise.keep(Ended(self.child.returncode, b"".join(self.texts["out"]), b"".join(self.texts["err"]), self.is_late, self.is_long))


def end_child(child):
    """Ends a child and all that it has started: each child is a group of its own."""
    try:
        os.killpg(child.pid, signal.SIGKILL)
    except (ProcessLookupError, PermissionError):
        pass


async def all_of(promises):
    """What all of these come to, in their order."""
    return [await promise for promise in promises]
