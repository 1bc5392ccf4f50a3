"""The programs as their users run them: what comes in by pipes, files and devices, and what goes to standard output and to standard
error. What is expected is worked out here from document 01, never taken from a program.

`python3 tests/programs.py`, at the repository's root, runs all cases on the programs of target/bin; with an argument FOLDER, on those
of FOLDER. A further program gets a function like `bench` here, called by `main`; that of the tally program is in tests/tallying.py.

The exit status of each program is 0 whatever happens, so a failure has to be told on standard error.
"""

import glob
import os
import sys

sys.dont_write_bytecode = True
from running import K1, K1_OUT, check, closed_pipe, in_pieces, results
from tallying import tally

UNREAD = b"bench: the sheet cannot be read\n"
UNWRITTEN = b"bench: the output cannot be written\n"


def bad(first, last, column):
    """What is printed for bad lines of one column."""
    return b"".join(b"%d 8 %d\n" % (line, column) for line in range(first, last + 1))


def empty_lines(length):
    """A sheet of so many bytes, its lines after the first all empty, and its output: an empty line is bad from column 1 on."""
    sheet = b"u 8\n" + b"\n" * (length - 4)
    units = b"".join(b"unit %d live next 2 1=12345678\n" % p for p in range(1, 9))
    return sheet, bad(2, length - 3, 1) + units


def bench():
    limit, limit_out = empty_lines(60_000)
    long = limit + b"\n"

    check("K1 at once", "bench", K1_OUT, pieces=[K1])
    check("K1 without its last line feed", "bench", K1_OUT, pieces=[K1[:-1]])
    check("K1 byte by byte", "bench", K1_OUT, pieces=[K1[i : i + 1] for i in range(len(K1))], pause=0.01)
    check("K1 in two pieces, slowly", "bench", K1_OUT, pieces=in_pieces(K1, 17), pause=0.5)
    check("arguments, which it does not look at", "bench", K1_OUT, pieces=[K1], args=["-h", "no_such_file"])
    check("empty input", "bench", b"")
    check("empty input, after a while", "bench", b"", pieces=[b""], pause=0.3)
    check("the null device", "bench", b"", stdin=os.open(os.devnull, os.O_RDONLY))

    # The line feed among them ends the first of two lines.
    check("every byte", "bench", bad(1, 1, 1) + bad(2, 2, 0), pieces=[bytes(range(256))])
    check("zeros", "bench", bad(1, 1, 1), pieces=[bytes(5_000)])
    check("bytes that are no text", "bench", bad(1, 1, 1) + bad(2, 3, 0), pieces=[b"\xff\xfe\n\x80u 1\n\xc3("])
    check("the same after a good line", "bench", bad(2, 3, 1) + b"unit 1 live next 2 1=1\n", pieces=[b"u 1\n\0\n\xff\x80"])
    check("carriage returns", "bench", bad(1, 1, 4) + bad(2, 2, 0), pieces=[b"u 1\r\ns 1\r\n"])

    check("60,000 bytes at once", "bench", limit_out, pieces=[limit])
    check("60,000 bytes in pieces", "bench", limit_out, pieces=in_pieces(limit, 1, 2, 4_096, 30_000, 25_900), pause=0.1)
    check("60,000 bytes, the last one late", "bench", limit_out, pieces=in_pieces(limit, 59_999), pause=0.3)
    check("60,000 bytes and a slow reader", "bench", limit_out, pieces=[limit], reading_pause=0.01)
    check("60,001 bytes at once", "bench", b"0 9\n", pieces=[long])
    check("60,001 bytes in pieces", "bench", b"0 9\n", pieces=in_pieces(long, 1, 2, 4_096, 30_000, 25_901), pause=0.1)
    check("60,001 bytes, the last one late", "bench", b"0 9\n", pieces=in_pieces(long, 60_000), pause=0.3)
    check("60,001 bytes of no form", "bench", b"0 9\n", pieces=[b"x" * 60_001])
    # Whoever writes a long sheet is not cut off.
    check("a long sheet and its rest", "bench", b"0 9\n", pieces=[long] + [b"r 1 1\n" * 10_000] * 20)
    check("a long sheet, its rest late", "bench", b"0 9\n", pieces=[long, b"s 1\n", b"s 1\n" * 40_000], pause=0.2)

    check("a sheet without end", "bench", b"0 9\n", stdin=os.open("/dev/zero", os.O_RDONLY))

    # The sheets of the tests; tests/reference has the same outputs for them.
    for sheet in sorted(glob.glob("crates/sheets/data/*.sheet")):
        with open(sheet, "rb") as given, open(sheet.removesuffix("sheet") + "out", "rb") as wanted:
            check(sheet, "bench", wanted.read(), stdin=os.dup(given.fileno()))

    check("a directory as input", "bench", b"", UNREAD, stdin=os.open(".", os.O_RDONLY))
    check("an input that cannot be read", "bench", b"", UNREAD, stdin=os.open(os.devnull, os.O_WRONLY))
    full = lambda: os.open("/dev/full", os.O_WRONLY)
    check("a full device as output", "bench", None, UNWRITTEN, pieces=[K1], stdout=full())
    check("a full device and a long sheet", "bench", None, UNWRITTEN, pieces=[long], stdout=full())
    check("a full device and nothing to write", "bench", None, b"", stdout=full())
    check("an output that cannot be written", "bench", None, UNWRITTEN, pieces=[K1], stdout=os.open(os.devnull, os.O_RDONLY))
    check("a closed pipe as output", "bench", None, UNWRITTEN, pieces=[K1], stdout=closed_pipe(), sigpipe=False)
    # By default the system ends a program that writes to a closed pipe; a program of this language says that it is not to.
    check("the same, where the system may end it", "bench", None, UNWRITTEN, pieces=[K1], stdout=closed_pipe())


# The program `runs`.

# For one and two processes, the runs of depth 0 to 8; and how many of depth 8 end with an entry beyond position 1, which no shorter run
# does. tests/reference has the same; document 02 has some of them.
RUNS = {1: [1, 3, 4, 10, 16, 40, 71, 181, 335], 2: [1, 7, 11, 67, 148, 843, 2231, 12510, 36461]}
ENTERED = {1: 2, 2: 124}


def walked(n, depth):
    """What is printed for `n depth`, one digit each: 2 comes before 14."""
    if not 1 <= n <= 8:
        return b"2\n"
    if n > 2 or depth > 8:
        return b"14\n"
    return b"%d %d\n" % (RUNS[n][depth], ENTERED[n] if depth == 8 else 0)


def runs():
    for n in range(10):
        for depth in range(10):
            line = b"%d %d" % (n, depth)
            check(f"{n} {depth}", "runs", walked(n, depth), pieces=[line + b"\n"])
            check(f"{n} {depth} without its line feed", "runs", walked(n, depth), pieces=[line])

    # Anything else is 8: too short, too long, and each byte that does not stand at its place.
    other = b"8\n"
    for line in [b"", b"\n", b"1", b"1\n", b"1 ", b"1 \n", b"12", b"1 8 ", b"1 8 \n", b"1 8x", b"1 8\n\n", b"1 8\n1 8\n", b"1 8\r\n", b"1 8\0"]:
        check(f"{line}", "runs", other, pieces=[line])
    for line in [b"1 10", b"10 1", b"01 1", b"1  8", b" 1 8", b"-1 8", b"1 -8", b"1,8", b"\n1 8", b"1\n8", b"1 8" * 10_000, bytes(range(256))]:
        check(f"{line[:8]} and so on", "runs", other, pieces=[line])
    for byte in set(range(256)) - set(b"0123456789"):
        one = bytes([byte])
        check(f"byte {byte} for N", "runs", other, pieces=[one + b" 1\n"])
        check(f"byte {byte} for DEPTH", "runs", other, pieces=[b"1 " + one + b"\n"])
    for byte in set(range(256)) - set(b" "):
        check(f"byte {byte} between", "runs", other, pieces=[b"1" + bytes([byte]) + b"1\n"])
    for byte in set(range(256)) - set(b"\n"):
        check(f"byte {byte} at the end", "runs", other, pieces=[b"1 1" + bytes([byte])])

    check("byte by byte", "runs", walked(1, 8), pieces=[b"1", b" ", b"8", b"\n"], pause=0.1)
    check("the line feed late", "runs", walked(1, 8), pieces=[b"1 8", b"\n"], pause=0.3)
    check("a second line late", "runs", other, pieces=[b"1 8\n", b"1 8\n"], pause=0.3)
    check("a long input, its rest late", "runs", other, pieces=[b"1 8\n1", b"x" * 200_000], pause=0.3)
    check("an input without end", "runs", other, stdin=os.open("/dev/zero", os.O_RDONLY))
    check("arguments, which it does not look at", "runs", walked(2, 8), pieces=[b"2 8"], args=["1", "0"])
    check("the null device", "runs", other, stdin=os.open(os.devnull, os.O_RDONLY))

    unread, unwritten = b"runs: the input cannot be read\n", b"runs: the output cannot be written\n"
    check("a directory as input", "runs", b"", unread, stdin=os.open(".", os.O_RDONLY))
    check("an input that cannot be read", "runs", b"", unread, stdin=os.open(os.devnull, os.O_WRONLY))
    check("a full device as output", "runs", None, unwritten, pieces=[b"1 1"], stdout=os.open("/dev/full", os.O_WRONLY))
    check("an output that cannot be written", "runs", None, unwritten, pieces=[b"x"], stdout=os.open(os.devnull, os.O_RDONLY))
    check("a closed pipe as output", "runs", None, unwritten, pieces=[b"1 1"], stdout=closed_pipe(), sigpipe=False)


def main():
    bench()
    tally()
    runs()
    print(f"tests/programs: {results['passed']} checks hold, {results['failed']} do not")
    sys.exit(results["failed"] > 0)


main()
