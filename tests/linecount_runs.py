"""linecount_runs PROGRAM [TEST..]: the program linecount beside a plain model, on logs in pieces of every size, on a log of
4 GiB, on a terminal, and where it cannot read. All tests if none is named. LOGS=number in the environment for more random
logs of each kind (15), SEED=number for others.
Status: 0 all as said, 1 something is wrong (a line says what)."""
import os
import pty
import random
import resource
import subprocess
import sys
import tempfile
import time

from linecount_model import KINDS, crc, frame, recorded, report
from serving import Wrong, check, run_tests, same

THIS = sys.modules[__name__]
PIECES = (1, 7, 100, 4096, 65536)
CASES = (("4D42 0003 010203", "records 1\nframes 0\nframe bytes 0\nother bytes 3\n"),
         ("", "records 0\nframes 0\nframe bytes 0\nother bytes 0\n"),
         ("4D42 0000", "records 1\nframes 0\nframe bytes 0\nother bytes 0\n"),
         ("4D42 0008 010300000001840A", "records 1\nframes 1\nframe bytes 8\nother bytes 0\n"),
         ("4D42 0012 00FF 010300000001840A 01030201023815 55", "records 1\nframes 2\nframe bytes 15\nother bytes 3\n"),
         ("4D42 0004 010741E2", "records 1\nframes 1\nframe bytes 4\nother bytes 0\n"),
         ("4D42 0006 010741E2 0000", "records 1\nframes 1\nframe bytes 4\nother bytes 2\n"),
         ("4D42 0005 FFFF000000", "records 1\nframes 1\nframe bytes 4\nother bytes 1\n"),
         ("4D42 0002 FFFF", "records 1\nframes 0\nframe bytes 0\nother bytes 2\n"),
         ("4D", "bad record at 0\n"), ("4D4200", "bad record at 0\n"), ("4E", "bad mark at 0\n"), ("4D43", "bad mark at 0\n"),
         ("4D42 0001 01 00", "bad mark at 5\n"), ("4D42 0001 01 4E", "bad mark at 5\n"),
         ("4D42 0001 01 4D", "bad record at 5\n"), ("4D42 0001 01 4D42 0002 01", "bad record at 5\n"),
         ("4D42 1001" + "00" * 4097, "bad record at 0\n"), ("4D42 1000" + "00" * 4095, "bad record at 0\n"),
         ("4D42 1000" + "00" * 4096, "records 1\nframes 0\nframe bytes 0\nother bytes 4096\n"))


def said(program, log):
    """What it prints where all of the log is there at once."""
    done = subprocess.run([program], input=log, capture_output=True, timeout=120, check=False)
    same((done.returncode, done.stderr), (0, b""), "the status and standard error")
    return done.stdout.decode()


def said_in_pieces(program, log, size):
    """What it prints where the log comes through a pipe, a piece at a time. Whoever refuses it need not read on."""
    with subprocess.Popen([program], stdin=subprocess.PIPE, stdout=subprocess.PIPE) as process:
        try:
            for at in range(0, len(log), size):
                os.write(process.stdin.fileno(), log[at:at + size])
        except BrokenPipeError:
            pass
        process.stdin.close()
        process.stdin = None
        return process.communicate(timeout=120)[0].decode()


def test_cases(program):
    for log, wanted in CASES:
        log = bytes.fromhex(log)
        same(report(log), wanted, f"what the model says of {log[:24].hex()}")
        for size in (1, 65536):
            same(said_in_pieces(program, log, size), wanted, f"what it says of {log[:24].hex()}")


def test_longest(program):
    """A frame of 256 bytes stands, one of 257 does not; where a shorter one stands in front, that is taken."""
    chance = random.Random(12)
    for length in (4, 5, 255, 256, 257, 258):
        one = frame(chance, length)
        while report(recorded(one)).split()[3] != str(int(length <= 256)):
            one = frame(chance, length)  # by chance another stands in it
        wanted = f"records 1\nframes {int(length <= 256)}\nframe bytes {length if length <= 256 else 0}\n" \
                 f"other bytes {0 if length <= 256 else length}\n"
        same(said(program, recorded(one)), wanted, f"what it says of a frame of {length}")
    inner = b"\1\7" + crc(b"\1\7").to_bytes(2, "little")
    outer = inner + b"\0" * 6
    same(said(program, recorded(outer + crc(outer).to_bytes(2, "little"))).splitlines()[1:3], ["frames 1", "frame bytes 4"],
         "what it says of a frame within a frame")


def test_random(program):
    """Random logs of every kind, each in pieces of one size and whole; every refusal is among them."""
    chance, heads = random.Random(int(os.environ.get("SEED", "1"))), set()
    for kind, make in KINDS.items():
        for n in range(int(os.environ.get("LOGS", "15"))):
            log = make(chance)
            wanted = report(log)
            heads.add(" ".join(wanted.split()[:2]) if wanted.startswith("bad") else wanted.split()[0])
            size = PIECES[n % len(PIECES)]
            if size > 1 or len(log) < 20000:
                same(said_in_pieces(program, log, size), wanted, f"log {n} of those that are {kind}, in pieces of {size}")
            same(said(program, log), wanted, f"log {n} of those that are {kind}")
    same(heads, {"records", "bad mark", "bad record"}, "what the logs come to")


def test_records_in_a_row(program):
    """Many records one behind the other: what the search keeps from one does not show in the next."""
    chance = random.Random(7)
    log = b"".join(recorded(KINDS_OF_BYTES[n % 3](chance, (4096, 300, 1000, 260, 8)[n % 5])) for n in range(30))
    same(said(program, log), report(log), "what it says of 30 records")


KINDS_OF_BYTES = (lambda chance, n: bytes(n), lambda chance, n: chance.randbytes(n),
                  lambda chance, n: (frame(chance, 8) * 512)[:n])


def test_too_long(program):
    """A log of 4 GiB through a pipe: its last record ends one byte beyond 4,294,967,295."""
    full, rest = recorded(bytes(4096)), 4294967296 % 4100
    many = full * 1000
    with subprocess.Popen([program], stdin=subprocess.PIPE, stdout=subprocess.PIPE) as process:
        try:
            for _ in range(4294967296 // 4100 // 1000):
                process.stdin.write(many)
            process.stdin.write(full * (4294967296 // 4100 % 1000) + recorded(bytes(rest - 4)))
            process.stdin.close()
        except BrokenPipeError:
            pass
        process.stdin = None
        same(process.communicate(timeout=300)[0].decode(), "too long\n", "what it says of a log of 4 GiB")


def test_memory(program):
    """A megabyte is enough, whatever the log, beside the tables of the search, which take 430 kilobytes: all of it is stack."""
    room = 1 << 20

    def limited():
        resource.setrlimit(resource.RLIMIT_STACK, (room + 430000, room + 430000))
    log = recorded(bytes(4096)) * 5000
    done = subprocess.run([program], input=log, capture_output=True, timeout=60, check=False, preexec_fn=limited)
    same(done.stdout.split(b"\n")[:2], [b"records 5000", b"frames 0"], "what it says of 20 megabytes")


def test_cannot_read(program):
    """A read that fails prints nothing on standard output, and a line on standard error."""
    folder = os.open("/", os.O_RDONLY)
    try:
        done = subprocess.run([program], stdin=folder, capture_output=True, timeout=20, check=False)
    finally:
        os.close(folder)
    same((done.stdout, done.stderr), (b"", b"linecount: cannot read\n"), "what it says of what cannot be read")


def test_terminal(program):
    """On a terminal a line says how far it is, from the second second on, and nothing where the log is short. Standard
    output has the four lines alone."""
    for wait in (0, 3.3):
        ours, theirs = pty.openpty()
        with subprocess.Popen([program], stdin=subprocess.PIPE, stdout=subprocess.PIPE, stderr=theirs) as process:
            os.close(theirs)
            one = recorded(frame(random.Random(3), 8))
            end = time.monotonic() + wait
            count = 0
            while count == 0 or time.monotonic() < end:
                process.stdin.write(one)
                process.stdin.flush()
                count += 1
                time.sleep(0.05 if wait else 0)
            process.stdin.close()
            process.stdin = None
            out = process.communicate(timeout=20)[0].decode()
        told = b""
        try:
            while more := os.read(ours, 4096):
                told += more
        except OSError:
            pass
        os.close(ours)
        same(out, f"records {count}\nframes {count}\nframe bytes {8 * count}\nother bytes 0\n", "standard output")
        check(bool(told) == (wait > 0), f"a log that takes {wait} seconds says {told}")
        check(wait == 0 or told.startswith(b"\rlinecount: ") and told.endswith(b" frames\r\n"), f"what is told: {told}")


if __name__ == "__main__":
    try:
        sys.exit(run_tests((THIS,), [os.path.abspath(sys.argv[1])], sys.argv[2:]))
    except Wrong as fault:
        sys.exit(f"wrong: {fault}")
