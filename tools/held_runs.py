"""Runs that are held up while they have a medium, for the cases of `check_program`."""

import contextlib
import os
import subprocess
import threading
import time


@contextlib.contextmanager
def waiting(words, first, reply, cwd, **how):
    """A run that waits for the rest of its script, once its reply to the first lines was read. It is given a minute."""
    streams = {"stdin": subprocess.PIPE, "stdout": subprocess.PIPE, "stderr": subprocess.PIPE}
    with subprocess.Popen(words, cwd=cwd, **streams, **how) as run:
        watch = threading.Timer(60, run.kill)
        watch.daemon = True
        watch.start()
        with contextlib.suppress(BrokenPipeError):
            run.stdin.write(first)
            run.stdin.flush()
        run.told = run.stdout.read(len(reply))
        try:
            yield run
        finally:
            run.kill()
            watch.cancel()


@contextlib.contextmanager
def untold(words, cwd, media=1):
    """A run that has the locks of so many media and cannot end: nobody reads its output, and there is no room left."""
    reader, writer = os.pipe()
    os.set_blocking(writer, False)
    with contextlib.suppress(BlockingIOError):
        while os.write(writer, b"."):
            pass
    os.set_blocking(writer, True)
    with subprocess.Popen(words, cwd=cwd, stdin=subprocess.DEVNULL, stdout=writer) as run:
        os.close(writer)
        watch = threading.Timer(60, run.kill)
        watch.daemon = True
        watch.start()
        while run.poll() is None and len(locks_of(run)) < media:
            time.sleep(0.01)
        try:
            yield run, reader
        finally:
            run.kill()
            watch.cancel()
            with contextlib.suppress(OSError):
                os.close(reader)


def locks_of(run):
    """How a run holds the locks of its files, as the system tells it, in order: READ, which is shared, or WRITE."""
    return sorted(words[3] for words in map(str.split, open("/proc/locks"))
                  if words[1] == "FLOCK" and words[4] == str(run.pid))


def ended(run, reader):
    """The end of a run whose output is read at last, and what it wrote behind what had filled its room."""
    with open(reader, "rb", closefd=False) as stream:
        told = stream.read().lstrip(b".")
    return run.wait(timeout=20), told


def beside(table, name, words, ending, output=b"", script=b"", **how):
    """A run beside another that has the medium. It may not wait for it."""
    try:
        table.row(name, words, ending, script, output, timeout=20, **how)
    except subprocess.TimeoutExpired:
        table.same(name, "it waits", "it ends")
