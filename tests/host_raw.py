"""The server's raw log of its RTU lines, which linecount counts."""
import os
import resource
import tempfile
import time

from linecount_model import frames
from preset import READ, READ_REPLY, Preset, exchange
from serving import Line, Server, asked, check, rtu, run, same, soon


def records(path):
    """Of a raw log."""
    with open(path, "rb") as file:
        log = file.read()
    found = []
    while log:
        check(log[:2] == b"MB", f"no mark, but {log[:4].hex()}")
        length = int.from_bytes(log[2:4], "big")
        check(0 < length <= 4096 and len(log) >= 4 + length, f"a record of {length} bytes is cut to {len(log) - 4}")
        found.append(log[4:4 + length])
        log = log[4 + length:]
    return found


def test_raw_log(program):
    """A record for what came between two silences, whole, however long; one for each reply, behind what was asked; what is
    there already stays."""
    with tempfile.TemporaryDirectory() as room, Line() as line:
        raw = os.path.join(room, "raw")
        with Preset(program, "--rtu", line.path, "--silence", "300", "--raw", raw):
            exchange(line, rtu, READ, READ_REPLY)
            same(records(raw), [rtu(READ), rtu(READ_REPLY)], "the raw log")
            for sent in (rtu(asked(3, 0, 2, unit=7)), b"\1", bytes(300), bytes(range(256)) * 2):
                line.send(sent)
                soon(lambda: records(raw)[-1] == sent, f"{len(sent)} bytes from {sent[:4].hex()} are no record")
        with Preset(program, "--rtu", line.path, "--silence", "300", "--raw", raw):
            exchange(line, rtu, READ, READ_REPLY)
        found = records(raw)
        same([len(one) for one in found], [8, 9, 8, 1, 300, 512, 8, 9], "the records")
        same([len(frames(one)) for one in found[:3]], [1, 1, 1], "frames in the first records")


def test_raw_endless(program):
    """What comes for longer than a record without a silence is cut into several, and no byte is lost."""
    sent = bytes(n * 7 & 255 for n in range(9000))
    with tempfile.TemporaryDirectory() as room, Line() as line:
        raw = os.path.join(room, "raw")
        with Preset(program, "--rtu", line.path, "--silence", "2000", "--raw", raw):
            for at in range(0, len(sent), 60):
                line.send(sent[at:at + 60])
                time.sleep(0.002)
            soon(lambda: b"".join(records(raw)) == sent, "what came is not what the records have")
        check(len(records(raw)) >= 3, "a record is longer than 4,096 bytes")


def test_raw_refused(program):
    """It wants an RTU line and a file that can be written, and says so."""
    with tempfile.TemporaryDirectory() as room, Line() as line:
        raw = os.path.join(room, "raw")
        same(run(program, "--raw", raw)[0], 2, "the status without an RTU line")
        same(run(program, "--ascii", line.path, "--raw", raw)[0], 2, "the status with an ASCII line alone")
        os.mkfifo(raw)
        for path in (room, os.path.join(room, "no", "raw"), raw):
            status, _, errors = run(program, "--rtu", line.path, "--raw", path)
            check(status == 1 and any("raw log" in line for line in errors), f"--raw {path}: {status} {errors}")


def test_raw_full_disk(program):
    """A record that finds no room is taken back and told, once; the requests are served."""
    with tempfile.TemporaryDirectory() as room, Line() as line:
        raw = os.path.join(room, "raw")

        def limited():
            resource.setrlimit(resource.RLIMIT_FSIZE, (1005, 1005))
        with Server(program, "--rtu", line.path, "--raw", raw, "--log", "/dev/null", preexec_fn=limited) as server:
            for _ in range(44):
                exchange(line, rtu, READ, bytes([1, 3, 4]) + bytes(4))
            same(len(records(raw)), 80, "the records that found room")
            same(server.output().count("lacks records"), 1, "how often it is told")
