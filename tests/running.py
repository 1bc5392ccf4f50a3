"""How tests/programs.py runs a program and tells what is not as expected."""

import os
import subprocess
import sys
import threading
import time

FOLDER = sys.argv[1] if len(sys.argv) > 1 else "target/bin"
PATIENCE = 60  # seconds
TOLD = 20  # failures that are told, before they are only counted

results = {"passed": 0, "failed": 0}


def shown(data):
    """The beginning and the length of what may be long."""
    return f"{data[:60]!r}, {len(data)} bytes"


def expect(case, what, got, wanted):
    if got == wanted:
        results["passed"] += 1
        return
    results["failed"] += 1
    if results["failed"] > TOLD:
        return
    if isinstance(got, bytes):
        got, wanted = shown(got), shown(wanted)
    print(f"failed: {case}: {what}: {got}\n        expected: {wanted}")


class Feeder(threading.Thread):
    """Writes pieces to a pipe, with a pause after each; tells whether all of them were taken."""

    def __init__(self, pipe, pieces, pause):
        super().__init__(daemon=True)
        self.pipe, self.pieces, self.pause, self.taken = pipe, pieces, pause, None
        self.start()

    def run(self):
        try:
            for piece in self.pieces:
                self.pipe.write(piece)
                self.pipe.flush()
                time.sleep(self.pause)
            self.pipe.close()
            self.taken = True
        except BrokenPipeError:
            self.taken = False


class Reader(threading.Thread):
    """Reads a pipe to its end, with a pause after each piece."""

    def __init__(self, pipe, pause):
        super().__init__(daemon=True)
        self.pipe, self.pause, self.got = pipe, pause, b""
        self.start()

    def run(self):
        while piece := self.pipe.read1(20_000):
            self.got += piece
            time.sleep(self.pause)


def run(
    case,
    program,
    pieces=(),
    pause=0.0,
    reading_pause=0.0,
    args=(),
    stdin=None,
    stdout=None,
    stderr=None,
    status=0,
    sigpipe=True,
    all_taken=True,
    **given,
):
    """Runs a program and gives what it wrote to both outputs. Its input is pieces through a pipe, or a file descriptor. An output may
    be a file descriptor too, and is then not read. All these descriptors are closed here. Without `sigpipe` the system does not end
    it at a broken pipe. It has to take all of its input, but for `all_taken` of None. What else is given goes to the process."""
    process = subprocess.Popen(
        [os.path.abspath(os.path.join(FOLDER, program)), *args],
        stdin=subprocess.PIPE if stdin is None else stdin,
        stdout=subprocess.PIPE if stdout is None else stdout,
        stderr=subprocess.PIPE if stderr is None else stderr,
        restore_signals=sigpipe,
        **given,
    )
    for descriptor in (stdin, stdout, stderr):
        if descriptor is not None:
            os.close(descriptor)
    feeder = Feeder(process.stdin, pieces, pause) if stdin is None else None
    readers = [Reader(pipe, reading_pause) if pipe else None for pipe in (process.stdout, process.stderr)]
    try:
        got = process.wait(PATIENCE)
    except subprocess.TimeoutExpired:
        process.kill()
        got = "no end"
    expect(case, "status", got, status)
    if feeder:
        feeder.join(PATIENCE)
        if all_taken is not None:
            expect(case, "all input was taken", feeder.taken, all_taken)
    for reader in filter(None, readers):
        reader.join(PATIENCE)
        expect(case, "the output ends", reader.is_alive(), False)
    return [reader.got if reader else None for reader in readers]


def check(case, program, out, err=b"", **given):
    """A run writes just these bytes to standard output and to standard error, where they are read."""
    got = run(case, program, **given)
    for what, got, wanted in zip(("standard output", "standard error"), got, (out, err)):
        if got is not None:
            expect(case, what, got, wanted)


def closed_pipe():
    """The writing end of a pipe that nobody reads."""
    reading, writing = os.pipe()
    os.close(reading)
    return writing


def in_pieces(data, *lengths):
    """The data in pieces of these lengths, and the rest."""
    pieces, at = [], 0
    for length in lengths:
        pieces.append(data[at : at + length])
        at += length
    return pieces + [data[at:]]


def stored(name):
    """A file of the worked sheets."""
    with open("crates/sheets/data/" + name, "rb") as file:
        return file.read()


# Sheet K1 and what is printed for it.
K1, K1_OUT = stored("K1.sheet"), stored("K1.out")
