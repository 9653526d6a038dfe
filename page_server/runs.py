"""Runs of nbhd, with limits on what each may take."""

import os
import resource
import selectors
import signal
import subprocess
import threading
import time

from .errors import ClientGone, Refusal

# The most windows, each with the most digits and a comma.
OUTPUT_BYTES = 24_000_000
# What a run writes to its standard error after so many bytes is dropped.
NOTE_BYTES = 64_000
RUN_SECONDS = 10
PROCESS_LIMITS = ((resource.RLIMIT_AS, 2**30), (resource.RLIMIT_FSIZE, 0), (resource.RLIMIT_CORE, 0))


class Runs:
    """The runs of nbhd under way, so that they end with the server."""

    def __init__(self, program):
        self.program, self.lock, self.children, self.closed = program, threading.Lock(), set(), False

    def start(self, words):
        with self.lock:
            if self.closed:
                raise Refusal(503, "the server is shutting down")
            child = subprocess.Popen(
                [self.program, *words],
                stdin=subprocess.PIPE,
                stdout=subprocess.PIPE,
                stderr=subprocess.PIPE,
                cwd="/",
                start_new_session=True,
            )
            self.children.add(child)
        return child

    def stop(self, child):
        """Kills the process group of a run. The child is reaped only afterwards, so its number cannot name another group."""
        with self.lock:
            if child in self.children:
                self.children.discard(child)
                os.killpg(child.pid, signal.SIGKILL)
                child.wait()
        for pipe in (child.stdin, child.stdout, child.stderr):
            pipe.close()

    def stop_all(self):
        with self.lock:
            self.closed = True
            for child in self.children:
                os.killpg(child.pid, signal.SIGKILL)

    def run(self, words, text, client_is_gone):
        """The status, the standard output and the standard error of nbhd with these words and this input. A status below 0 is that of
        a signal that ended it."""
        child = self.start(words)
        try:
            # Early enough: nbhd reads its whole input before it computes, and has none of it yet. Setting the limits between fork and
            # exec would run Python code in a forked copy of a process with threads.
            for limit, most in PROCESS_LIMITS:
                resource.prlimit(child.pid, limit, (most, most))
            deadline = time.monotonic() + RUN_SECONDS
            out, note = exchange(child, text, deadline, client_is_gone)
            # The outputs can be closed before the process ends. It is not reaped here, as `stop` needs its number.
            while os.waitid(os.P_PID, child.pid, os.WEXITED | os.WNOWAIT | os.WNOHANG) is None:
                check_time(deadline)
                time.sleep(0.005)
        finally:
            self.stop(child)
        return child.returncode, out, note


def check_time(deadline):
    if time.monotonic() > deadline:
        raise Refusal(503, f"nbhd was stopped after {RUN_SECONDS} seconds")


def exchange(child, text, deadline, client_is_gone):
    """Writes the input of a child and reads both outputs, until these have ended."""
    rest, out, note = memoryview(text), bytearray(), bytearray()
    with selectors.DefaultSelector() as selector:
        for pipe in (child.stdin, child.stdout, child.stderr):
            os.set_blocking(pipe.fileno(), False)
            selector.register(pipe, selectors.EVENT_WRITE if pipe is child.stdin else selectors.EVENT_READ)
        while {child.stdout, child.stderr} & {key.fileobj for key in selector.get_map().values()}:
            check_time(deadline)
            if client_is_gone():
                raise ClientGone
            for key, _ in selector.select(0.1):
                pipe = key.fileobj
                if pipe is child.stdin:
                    rest = rest[written(pipe, rest) :]
                    ended = not rest
                else:
                    ended = not read_piece(pipe, out if pipe is child.stdout else note)
                if ended:
                    selector.unregister(pipe)
                    pipe.close()
                if len(out) > OUTPUT_BYTES:
                    raise Refusal(503, f"the output is longer than {OUTPUT_BYTES // 10**6} MB")
                del note[NOTE_BYTES:]
    return bytes(out), bytes(note)


def written(pipe, data):
    """Writes a piece of the data, and returns how many bytes need not be written again."""
    try:
        return os.write(pipe.fileno(), data[:65536]) if data else 0
    except BrokenPipeError:
        # nbhd reads no more than a program text may be long.
        return len(data)


def read_piece(pipe, buffer):
    """Appends a piece of what a pipe gives, and tells whether there was one."""
    piece = os.read(pipe.fileno(), 65536)
    buffer += piece
    return bool(piece)
