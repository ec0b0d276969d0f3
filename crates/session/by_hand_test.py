#!/usr/bin/env python3
"""Uses the program `session` as somebody at a terminal would, and as another program would, through pipes.

Once `./play` has run: crates/session/by_hand_test.py [PROGRAM]. It says what passed; its status is 0 if all did.
"""
import contextlib
import os
import pathlib
import pty
import re
import select
import signal
import subprocess
import sys
import tempfile
import threading
import time

HERE = pathlib.Path(__file__).resolve().parent
PROGRAM = pathlib.Path(sys.argv[1] if len(sys.argv) > 1 else HERE / "out/session").resolve()
TABLE = (HERE / "data/table.isw").read_bytes()
WAIT = 20  # the seconds after which a reply counts as missing
MOST_MEMORY = 16 * 1024  # in KiB


@contextlib.contextmanager
def folder_with(table):
    """A new folder with these bytes as its table.isw; with none, if there are no bytes."""
    with tempfile.TemporaryDirectory() as name:
        if table is not None:
            (pathlib.Path(name) / "table.isw").write_bytes(table)
        yield name


def played(data, table=TABLE):
    """What the program writes for a whole input. Its status has to be 0."""
    with folder_with(table) as folder:
        done = subprocess.run([PROGRAM], cwd=folder, input=data, stdout=subprocess.PIPE, timeout=120)
    assert done.returncode == 0, f"status {done.returncode}"
    return done.stdout


class Session:
    """The program under way, with a pipe at either end."""

    def __init__(self, folder, stdin=subprocess.PIPE):
        self.process = subprocess.Popen([PROGRAM], cwd=folder, stdin=stdin, stdout=subprocess.PIPE, bufsize=0)

    def write(self, data):
        view = memoryview(data)
        while view:
            view = view[self.process.stdin.write(view):]

    def is_silent(self, seconds):
        return not select.select([self.process.stdout], [], [], seconds)[0]

    def reply(self):
        """The next line that the program writes."""
        line = b""
        while not line.endswith(b"\n"):
            assert not self.is_silent(WAIT), f"no reply within {WAIT} s, only {line!r}"
            byte = self.process.stdout.read(1)
            assert byte, f"the output ends at {line!r}"
            line += byte
        return line[:-1].decode()

    def rest(self):
        """What the program still writes when its input ends."""
        self.process.stdin.close()
        rest = self.process.stdout.read()
        status = self.process.wait(timeout=WAIT)
        assert status == 0, f"status {status}"
        return rest

    def peak(self):
        """The most memory that it has held so far, in KiB (ru_maxrss would count this test's own, before the exec)."""
        status = pathlib.Path(f"/proc/{self.process.pid}/status").read_text()
        return int(re.search(r"VmHWM:\s*(\d+) kB", status).group(1))


@contextlib.contextmanager
def session(stdin=subprocess.PIPE):
    with folder_with(TABLE) as folder:
        under_way = Session(folder, stdin)
        try:
            yield under_way
        finally:
            under_way.process.kill()
            under_way.process.wait()


def each_reply_comes_before_the_next_line():
    script = [
        ("ask 0 0", "go 0"),
        ("ask 1 0", "go 4"),
        ("ask 1 0", "no 10"),
        ("end 1 4 5", "ok"),
        ("ask 1 4", "no 9"),
        ("what", "bad"),
        ("ask 1 5", "hold 5"),
    ]
    with session() as by_hand:
        for line, reply in script:
            by_hand.write(line.encode() + b"\n")
            got = by_hand.reply()
            assert got == reply, f"{line}: {got}, not {reply}"
        assert by_hand.rest() == b""


def at_a_terminal():
    keyboard, terminal = pty.openpty()
    with session(terminal) as by_hand:
        for line, reply in ((b"ask 0 0", "go 0"), (b"what", "bad")):
            os.write(keyboard, line + b"\n")
            assert by_hand.reply() == reply
        os.kill(by_hand.process.pid, signal.SIGSTOP)
        os.kill(by_hand.process.pid, signal.SIGCONT)
        os.write(keyboard, b"ask 1 0\n")
        assert by_hand.reply() == "go 4"
        os.write(keyboard, b"\x04")  # the end of the input
        assert by_hand.process.wait(timeout=WAIT) == 0
    os.close(keyboard)
    os.close(terminal)


def a_line_may_come_in_pieces():
    with session() as by_hand:
        for piece in (b"as", b"k 0", b" 0"):
            by_hand.write(piece)
            assert by_hand.is_silent(0.1)
        by_hand.write(b"\nask 1")
        assert by_hand.reply() == "go 0"
        assert by_hand.is_silent(0.1)
        by_hand.write(b" 0\nask 1 0\nas")
        assert by_hand.reply() == "go 4"
        assert by_hand.reply() == "no 10"
        assert by_hand.rest() == b"bad\n"


def a_silent_line_shows_nothing():
    with session() as by_hand:
        by_hand.write(b"\n# a comment\n\n")
        assert by_hand.is_silent(0.3)
        by_hand.write(b"ask 0 0\n")
        assert by_hand.reply() == "go 0"
        assert by_hand.rest() == b""


def a_last_line_needs_no_newline():
    with session() as by_hand:
        by_hand.write(b"ask 0 0\nask 1 0")
        assert by_hand.reply() == "go 0"
        assert by_hand.is_silent(0.1)
        assert by_hand.rest() == b"go 4\n"
    for data, told in (
        (b"", b""),
        (b"ask 0 0", b"go 0\n"),
        (b"ask 0 0\n", b"go 0\n"),
        (b"ask 0 0\n\n", b"go 0\n"),
        (b"# only this", b""),
        (b"what", b"bad\n"),
    ):
        assert played(data) == told, data


def lines_at_80_bytes_and_beyond():
    for length in (79, 80, 81, 82, 161, 162, 8191, 8192, 8193, 100_000):
        line = b"ask" + b" " * (length - 6) + b"0 0"
        told = b"go 0\n" if length <= 80 else b"bad\n"
        assert len(line) == length
        assert played(line) == told, f"{length} bytes, no newline"
        assert played(line + b"\nask 1 0\n") == told + b"go 4\n", f"{length} bytes"
        comment = b"#" * length + b"\n"
        assert played(comment) == (b"" if length <= 80 else b"bad\n"), f"a comment of {length} bytes"


def a_line_of_a_million_bytes_is_bad():
    for byte in (b"#", b" ", b"a", b"\0", b"\xff", b"\r"):
        assert played(byte * 1_000_000 + b"\nask 0 0\n") == b"bad\ngo 0\n", byte
    assert played(b"ask 0 0" + b" " * 1_000_000) == b"bad\n"


def each_byte_value():
    assert played(bytes(range(256)) + b"\nask 0 0\n") == b"bad\nbad\ngo 0\n"
    for value in range(256):
        byte = bytes([value])
        alone = played(byte + b"\n")
        assert alone == (b"" if byte in (b"\n", b"#") else b"bad\n"), (value, alone)
        as_time = played(b"ask 0 " + byte + b"\n")
        assert as_time == (b"go 0\n" if byte.isdigit() else b"bad\n"), (value, as_time)


def a_carriage_return_makes_a_line_bad():
    assert played(b"ask 0 0\r\n\r\n#\r\n") == b"bad\nbad\n"


def no_table():
    for name, table in (
        ("missing", None),
        ("empty", b""),
        ("a byte too short", TABLE[:-1]),
        ("a byte too long", TABLE + b"\0"),
        ("another mark", b"\0" + TABLE[1:]),
        ("a core too high", TABLE[:6] + b"\xe0" + TABLE[7:]),
        ("4230 zeros", bytes(4230)),
        ("4231 bytes", TABLE.ljust(4231, b"\0")),
        ("20 million bytes", TABLE.ljust(20_000_000, b"\0")),
    ):
        told = played(b"ask 0 0\n", table)
        assert told == b"no table\n", f"{name}: {told!r}"
    with folder_with(None) as folder:
        (pathlib.Path(folder) / "table.isw").mkdir()
        done = subprocess.run([PROGRAM], cwd=folder, input=b"", stdout=subprocess.PIPE, timeout=WAIT)
        assert (done.returncode, done.stdout) == (0, b"no table\n"), "a folder in its place"


def counted(parts, replies):
    """Writes the parts, while the replies are read and counted; then says how much memory that took, and how long."""
    with session() as by_hand:
        begun = time.monotonic()

        def feed():
            for part in parts:
                by_hand.write(part)

        feeder = threading.Thread(target=feed, daemon=True)
        feeder.start()
        seen = 0
        while seen < replies:
            assert not by_hand.is_silent(WAIT), f"only {seen} replies"
            seen += by_hand.process.stdout.read(1 << 16).count(b"\n")
        feeder.join(WAIT)
        took = time.monotonic() - begun
        peak = by_hand.peak()
        assert seen == replies and by_hand.rest() == b"", f"{seen} replies, not {replies}"
    assert peak < MOST_MEMORY, f"{peak} KiB"
    return f"{peak} KiB, {took:.1f} s"


def a_million_lines():
    return counted([b"ask 0 0\n# silent\nwhat\nend 1 4 5\n\n" * 10_000] * 20, 600_000)


def a_million_calls():
    return counted([b"end 0 0 268435455\n" * 10_000] * 100, 1_000_000)


def a_line_of_a_hundred_million_bytes():
    return counted([b"a" * 1_000_000] * 100 + [b"\n"], 1)


def an_output_that_nobody_reads_ends_it():
    with session() as by_hand:
        by_hand.process.stdout.close()
        with contextlib.suppress(BrokenPipeError):
            by_hand.write(b"ask 0 0\n" * 100_000)
        with contextlib.suppress(BrokenPipeError):
            by_hand.process.stdin.close()
        assert by_hand.process.wait(timeout=WAIT) != 0


TESTS = [
    each_reply_comes_before_the_next_line,
    at_a_terminal,
    a_line_may_come_in_pieces,
    a_silent_line_shows_nothing,
    a_last_line_needs_no_newline,
    lines_at_80_bytes_and_beyond,
    a_line_of_a_million_bytes_is_bad,
    each_byte_value,
    a_carriage_return_makes_a_line_bad,
    no_table,
    a_million_lines,
    a_million_calls,
    a_line_of_a_hundred_million_bytes,
    an_output_that_nobody_reads_ends_it,
]


def main():
    failed = 0
    for test in TESTS:
        name = test.__name__.replace("_", " ")
        try:
            more = test()
            print(f"passed: {name}" + (f" ({more})" if more else ""), flush=True)
        except (AssertionError, OSError, subprocess.SubprocessError) as why:
            failed += 1
            print(f"FAILED: {name}: {why}", flush=True)
    return 1 if failed else 0


sys.exit(main())
