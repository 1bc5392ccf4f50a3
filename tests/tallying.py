"""The cases of the tally program, for tests/programs.py. What is expected is worked out by hand from documents 01 and 02, never taken
from a program."""

import contextlib
import fractions
import os
import socket
import resource
import shutil
import stat
import subprocess
import tempfile
import threading
import time

from running import FOLDER, K1, PATIENCE, check, closed_pipe, expect, in_pieces, shown

NAMES_UNREAD = b"tally: the names cannot be read\n"
TALLY_UNWRITTEN = b"tally: the output cannot be written\n"

K1_COUNTS = (3, 3, 0, 0, 1, 1)
NOTHING = (0, 0, 0, 0, 0, 0)
# Sheets and their counts, by hand: sent, taken, waiting, lost, committed, proposals.
SHEETS = {
    # Propose, Acc and Commit of unit 1 to itself.
    b"K1.sheet": (K1, K1_COUNTS),
    b"K1_no_last_lf.sheet": (K1[:-1], K1_COUNTS),
    # The same by a settling run, three times, and two proposals that wait.
    b"settled.sheet": (b"u 1\n" + b"r 1 1\nq\n" * 3 + b"r 1 1\n" * 2, (11, 9, 2, 0, 3, 5)),
    b"thirds.sheet": (b"u 1\n" + b"r 1 1\nq\n" * 2 + b"r 1 1\n" * 4, (10, 6, 4, 0, 2, 6)),
    # Of the eight Proposes to unit 2 one is taken, the others are cleared.
    b"cleared.sheet": (b"u 2\n" + b"r 1 12\nt 1 1\n" * 8 + b"t 1 2\ns 2\n", (16, 9, 0, 7, 0, 8)),
    # All units but 1 have stopped: seven Proposes vanish.
    b"vanished.sheet": (b"u 8\n" + b"".join(b"s %d\n" % p for p in range(2, 9)) + b"r 1 12345678\n", (8, 0, 1, 7, 0, 1)),
    # Cut after three of eight, of which its own is cleared.
    b"cut.sheet": (b"u 8\nr 1 12345678 cut 3\n", (3, 0, 2, 1, 0, 1)),
    b"cut_at_once.sheet": (b"u 8\nr 1 12345678 cut 0\n", (0, 0, 0, 0, 0, 1)),
    # Eight Proposes, eight Accs, eight Commits.
    b"all_agree.sheet": (b"u 8\nr 1 12345678\nq\n", (24, 24, 0, 0, 1, 1)),
    # 31 proposals, of which none is answered.
    b"history_full.sheet": (b"u 1\n" + b"r 1 1\nt 1 1\n" * 40, (31, 31, 0, 0, 0, 31)),
    # Unit p proposes p to 8, and they take it, 31 times: 31 times 36 messages.
    b"many.sheet": (
        b"u 8\n"
        + b"".join(
            (b"r %d %s\n" % (p, b"12345678"[p - 1 :]) + b"".join(b"t %d %d\n" % (p, q) for q in range(p, 9))) * 31 for p in range(1, 9)
        ),
        (1_116, 1_116, 0, 0, 0, 248),
    ),
    # 31 agreements of all eight units.
    b"agreements.sheet": (b"u 8\n" + b"r 1 12345678\nq\n" * 31, (744, 744, 0, 0, 31, 31)),
    b"refused.sheet": (b"u 2\nr 1 2\nt 1 2\na 1 1\nr 3 1\nzz\nr 1 12 cut 2\n", NOTHING),
    b"bad_first.sheet": (b"u 9\nr 1 1\nq\n", NOTHING),
    b"only_u.sheet": (b"u 3\n", NOTHING),
    b"one_lf.sheet": (b"\n", NOTHING),
    b"empty.sheet": (b"", NOTHING),
    b"zeros.sheet": (bytes(5_000), NOTHING),
    # A good sheet in 60,000 bytes: 10 for u and the report, then empty lines.
    b"limit.sheet": (b"u 8\nr 8 8\n" + b"\n" * 59_990, (1, 0, 1, 0, 0, 1)),
    # Names with odd bytes.
    b"two words": (K1, K1_COUNTS),
    b" ": (K1, K1_COUNTS),
    b"all": (K1, K1_COUNTS),
    "\u00e4\u20ac\u0001".encode(): (K1, K1_COUNTS),
    b"%s\\n\t\r": (K1, K1_COUNTS),
    b"x" * 255: (K1, K1_COUNTS),
}
LONG = {
    b"long.sheet": SHEETS[b"limit.sheet"][0] + b"\n",
    b"very_long.sheet": K1 + b"x" * 1_000_000,
}
# Sheets that are there, by names that are not UTF-8: they are not opened (docs/DECISIONS.md, 86).
NO_TEXT = {
    b"\xff\xfe\x01": K1,
    b"K1\x80.sheet": K1,
}


def counted(name, counts):
    """`NAME sent A taken B waiting C lost D share E/F`; a fraction is always in lowest terms."""
    *messages, committed, proposals = counts
    share = fractions.Fraction(committed, proposals or 1)
    return name + b" sent %d taken %d waiting %d lost %d share " % tuple(messages) + b"%d/%d\n" % share.as_integer_ratio()


def tallied(names):
    """What is printed for these names, of sheets or of something else."""
    out, total = b"", NOTHING
    for name in names:
        if name in SHEETS:
            counts = SHEETS[name][1]
            out += counted(name, counts)
            total = tuple(a + b for a, b in zip(total, counts))
        else:
            out += name[:255] + b" " + (b"long" if name in LONG else b"unopened") + b"\n"
    return out + counted(b"all", total)


def of_length(length, name):
    """The same file by a name of so many bytes."""
    odd = (length - len(name)) % 2
    return b"." + b"/" * odd + b"/" + b"./" * ((length - len(name)) // 2 - 1) + name


@contextlib.contextmanager
def class_folder():
    """A folder with the sheets and with what cannot be opened or read."""
    with tempfile.TemporaryDirectory() as name:
        folder = os.fsencode(name)
        for name, (sheet, _) in SHEETS.items():
            with open(os.path.join(folder, name), "wb") as file:
                file.write(sheet)
        for name, sheet in {**LONG, **NO_TEXT}.items():
            with open(os.path.join(folder, name), "wb") as file:
                file.write(sheet)
        os.mkdir(os.path.join(folder, b"folder"))
        os.symlink(b"nothing", os.path.join(folder, b"dangling"))
        os.symlink(b"loop", os.path.join(folder, b"loop"))
        os.mknod(os.path.join(folder, b"socket"), stat.S_IFSOCK | 0o600)
        yield folder


def tally():
    with open("tests/class/names.txt", "rb") as given, open("tests/class/expected.txt", "rb") as wanted:
        check("tests/class", "tally", wanted.read(), stdin=os.dup(given.fileno()))
    # What docs/INSTRUCTORS.md shows: names, and what is printed for them.
    with open("docs/INSTRUCTORS.md", "rb") as file:
        _, names, _, shown_there, *_ = (block.lstrip(b"\n") for block in file.read().split(b"```")[2:])
    check("docs/INSTRUCTORS.md", "tally", shown_there, pieces=[names])
    with class_folder() as folder:
        tally_in(folder)
        unreadable(folder)


def tally_in(folder):
    def check_names(case, names, last=b"\n", **given):
        check(case, "tally", tallied(names), pieces=[b"\n".join(names) + last], cwd=folder, **given)

    for name in [*SHEETS, *LONG, *NO_TEXT]:
        check_names(f"{name!r} alone", [name])
    check_names("all of them", [*SHEETS, *LONG, *NO_TEXT])
    check_names("all of them, backwards", [*reversed(SHEETS), *reversed(LONG)])
    check_names("without the last line feed", [b"K1.sheet", b"cut.sheet"], last=b"")
    check_names("the same sheet twice", [b"thirds.sheet", b"thirds.sheet"])
    check_names("64 times the same", [b"cleared.sheet"] * 64)
    check_names("more messages than two bytes can count", [b"many.sheet"] * 64)
    check_names("a share of many", [b"many.sheet", b"agreements.sheet"] * 32)
    check_names("arguments, which it does not look at", [b"K1.sheet"], args=["-h", "cut.sheet"])
    check("no names", "tally", tallied([]), cwd=folder)
    check("no names, after a while", "tally", tallied([]), pieces=[b""], pause=0.3, cwd=folder)
    check("the null device", "tally", tallied([]), stdin=os.open(os.devnull, os.O_RDONLY), cwd=folder)

    # What comes in by a pipe may come in any pieces, also in the middle of a name.
    names = [b"K1.sheet", b"none", b"", b"long.sheet", b"x" * 256, b"cut.sheet"]
    text = b"\n".join(names) + b"\n"
    check_names("by a pipe", names)
    check("byte by byte", "tally", tallied(names), pieces=[text[i : i + 1] for i in range(len(text))], pause=0.002, cwd=folder)
    check("in two pieces, slowly", "tally", tallied(names), pieces=in_pieces(text, 3), pause=0.5, cwd=folder)

    # What cannot be opened or read, each between two sheets that are counted.
    unopened = [b"none", b"folder", b"folder/", b".", b"..", b"/", b"K1.sheet/", b"K1.sheet/x", b"none/K1.sheet", b"dangling", b"loop"]
    unopened += [b"socket", b"K1.sheet ", b" K1.sheet", b"k1.SHEET", b"K1.sheet\r", b"\r", b"\t", b"-", b"*", b"~", b"all "]
    # It can be opened, but a read of it fails.
    unopened += [b"/proc/self/mem"]
    for name in unopened:
        check_names(f"{name!r}, which is not opened", [b"cut.sheet", name, b"K1.sheet"])
    check_names("all of these", unopened)
    check_names("an empty name", [b"K1.sheet", b"", b"cut.sheet"])
    check_names("empty names alone", [b"", b""])
    check_names("an empty name first", [b"", b"K1.sheet"])
    # A zero byte ends no name, though what stands before it can be opened.
    check_names("names with a zero byte", [b"K1.sheet\0", b"K1.sheet\0x", b"\0", b"\0K1.sheet", b"K1.sheet"])
    check_names("a zero byte last of all", [b"K1.sheet", b"K1.sheet\0"], last=b"")
    empty = counted(b"/dev/null", NOTHING) + counted(b"all", NOTHING)
    check("an empty sheet of the system", "tally", empty, pieces=[b"/dev/null"], cwd=folder)
    # It never ends, so that whoever reads it to its end does not either.
    check("a sheet without end", "tally", b"/dev/zero long\n" + tallied([]), pieces=[b"/dev/zero\n"], cwd=folder)

    # Up to 255 bytes a name is tried; of one that is longer the first 255 are printed, and opened they would be a sheet.
    for length in (128, 129, 254, 255, 256, 257, 511, 512):
        name = of_length(length, b"K1.sheet")
        line = counted(name, K1_COUNTS) if length <= 255 else name[:255] + b" unopened\n"
        total = K1_COUNTS if length <= 255 else NOTHING
        check(f"a name of {length} bytes", "tally", line + counted(b"all", total), pieces=[name + b"\n"], cwd=folder)
        check(f"a name of {length} bytes, no line feed", "tally", line + counted(b"all", total), pieces=[name], cwd=folder)
    just = of_length(255, b"K1.sheet")
    for more in (1, 2, 1_000, 70_000, 1_000_000):
        line = just + b" unopened\n" + counted(b"K1.sheet", K1_COUNTS) + counted(b"all", K1_COUNTS)
        check(f"a name of {255 + more} bytes", "tally", line, pieces=[just + b"x" * more + b"\nK1.sheet\n"], cwd=folder)
    check_names("300 zero bytes", [b"\0" * 300, b"K1.sheet"])

    # Names past the 64th are not read; whatever became of the others, they count.
    for first in ([b"K1.sheet"] * 64, [b"none"] * 63 + [b"K1.sheet"], [b""] * 64, [b"long.sheet"] * 64, [b"x" * 256, b"cut.sheet"] * 32):
        for past in (b"", b"\n", b"\nK1.sheet", b"\nK1.sheet\n", b"\n\n\n", b"\n" + b"K1.sheet\n" * 100, b"\n" + b"y" * 300, b"\n\0"):
            case = f"64 names, {first[0][:9]!r} first, then {shown(past)}"
            # An empty name is one only with its line feed.
            given = b"\n".join(first) + (past or b"\n" * (first[-1] == b""))
            check(case, "tally", tallied(first), pieces=[given], cwd=folder)
    check_names("63 names", [b"K1.sheet"] * 63)
    check("names without end", "tally", tallied([b"cut.sheet"] * 64), pieces=[b"cut.sheet\n" * 100_000], cwd=folder, all_taken=None)

    # A sheet that comes by a named pipe, in pieces.
    fifo = os.path.join(folder, b"fifo")
    os.mkfifo(fifo)
    for case, sheet, counts in (("K1", K1, K1_COUNTS), ("60,000 bytes", *SHEETS[b"limit.sheet"])):
        feeder = threading.Thread(target=feed, args=(fifo, in_pieces(sheet, 1, 16, 2)), daemon=True)
        feeder.start()
        out = counted(b"fifo", counts) + counted(b"all", counts)
        check(f"a sheet by a named pipe, {case}", "tally", out, pieces=[b"fifo\n"], cwd=folder)
        feeder.join(PATIENCE)
    # Each sheet is closed again: eight descriptors are enough for 64 of them.
    few = lambda: resource.setrlimit(resource.RLIMIT_NOFILE, (8, 8))
    check_names("few descriptors", [b"K1.sheet", b"folder", b"long.sheet", b"none"] * 16, preexec_fn=few)

    check("a directory for the names", "tally", b"", NAMES_UNREAD, stdin=os.open(".", os.O_RDONLY), cwd=folder)
    check("names that cannot be read", "tally", b"", NAMES_UNREAD, stdin=os.open(os.devnull, os.O_WRONLY), cwd=folder)
    # A name that comes byte by byte takes as many reads as it has bytes.
    far = b"x" * 255 + b" unopened\n" + counted(b"K1.sheet", K1_COUNTS) + counted(b"all", K1_COUNTS)
    check("a name in 70,000 reads", "tally", far, stdin=crumbs(b"x" * 70_000 + b"\nK1.sheet\n"), cwd=folder)
    line_by_line(folder)
    given = dict(pieces=[b"K1.sheet\nnone\n"], cwd=folder)
    full = os.open("/dev/full", os.O_WRONLY)
    check("a full device as output", "tally", None, TALLY_UNWRITTEN, stdout=full, **given)
    full = os.open("/dev/full", os.O_WRONLY)
    check("a full device and no names", "tally", None, TALLY_UNWRITTEN, stdout=full, cwd=folder)
    check("an output that cannot be written", "tally", None, TALLY_UNWRITTEN, stdout=os.open(os.devnull, os.O_RDONLY), **given)
    check("a closed pipe as output", "tally", None, TALLY_UNWRITTEN, stdout=closed_pipe(), sigpipe=False, **given)
    check("the same, where the system may end it", "tally", None, TALLY_UNWRITTEN, stdout=closed_pipe(), **given)


def line_by_line(folder):
    """Each line is written as soon as its sheet is counted: it is there before the next name is given."""
    process = subprocess.Popen(
        [os.path.abspath(os.path.join(FOLDER, "tally"))], stdin=subprocess.PIPE, stdout=subprocess.PIPE, cwd=folder
    )
    ender = threading.Timer(PATIENCE, process.kill)
    ender.start()
    for name, line in ((b"K1.sheet", counted(b"K1.sheet", K1_COUNTS)), (b"none", b"none unopened\n")):
        process.stdin.write(name + b"\n")
        process.stdin.flush()
        expect(f"{name!r}, before another name is given", "standard output", process.stdout.readline(), line)
    process.stdin.close()
    expect("after the last name", "standard output", process.stdout.read(), counted(b"all", K1_COUNTS))
    expect("after the last name", "status", process.wait(), 0)
    ender.cancel()


def crumbs(data):
    """A socket from which each read gets one byte."""
    ours, theirs = socket.socketpair(socket.AF_UNIX, socket.SOCK_SEQPACKET)

    def write():
        with ours:
            try:
                for byte in data:
                    ours.send(bytes([byte]))
            except OSError:
                pass

    threading.Thread(target=write, daemon=True).start()
    return theirs.detach()


def feed(fifo, pieces):
    with open(fifo, "wb", buffering=0) as pipe:
        for piece in pieces:
            time.sleep(0.1)
            pipe.write(piece)


def unreadable(folder):
    """A sheet that the user may not open. Root may open every file, so that root runs the program as nobody."""
    secret = os.path.join(folder, b"secret")
    with open(secret, "wb") as file:
        file.write(K1)
    os.chmod(secret, 0)
    given = dict(pieces=[b"K1.sheet\nsecret\ncut.sheet\n"], cwd=folder)
    case, out = "a sheet that may not be opened", tallied([b"K1.sheet", b"secret", b"cut.sheet"])
    if os.geteuid() != 0:
        check(case, "tally", out, **given)
        return
    os.chmod(folder, 0o755)
    for name in (b"K1.sheet", b"cut.sheet"):
        os.chmod(os.path.join(folder, name), 0o644)
    program = os.path.join(folder, b"program")
    shutil.copy(os.path.join(FOLDER, "tally"), program)
    os.chmod(program, 0o755)
    try:
        check(case, os.fsdecode(program), out, user=65534, group=65534, extra_groups=[], **given)
    except PermissionError:
        print("tests/programs: not run: a sheet that may not be opened; this root may not become another user. Sheets that")
        print("                cannot be opened or read for other reasons are run: see `unopened`.")
