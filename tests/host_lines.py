"""The server and its serial lines."""
import os
import subprocess
import tempfile
import termios
import time

from preset import Preset, READ, READ_REPLY, exchange
from serving import Client, Line, ascii_line, asked, check, rtu, run, same, soon


def test_rtu_silence(program):
    """Pieces without silence between them are one frame, with silence several."""
    with Line() as line, Preset(program, "--rtu", line.path, "--silence", "700") as server:
        frame = rtu(READ)
        for at in range(8):
            line.send(frame[at:at + 1])
            time.sleep(0.12)
        same(line.receive(9), rtu(READ_REPLY), "the reply to a frame in pieces")
        line.send(frame[:5])
        time.sleep(2)
        line.send(frame[5:])
        check(line.is_quiet(2), "a frame with a silence in it is answered")
        line.send(bytes(255))
        time.sleep(0.01)
        line.send(bytes(300))
        check(line.is_quiet(2), "an overlong frame is answered")
        exchange(line, rtu, READ, READ_REPLY)
        outcomes = [(len(line.split()[2]) // 2, line.split()[3].strip(",")) for line in server.log()]
        same(outcomes, [(8, "Answered"), (5, "FrameCheck"), (3, "FrameBroken"), (257, "FrameBroken"), (8, "Answered")],
             "the log")


def in_bursts(line, frame, pieces, pause):
    """Sends the frame in pieces; no time between two of them was longer than what is returned."""
    size, longest, last = -(-len(frame) // pieces), 0, None
    for at in range(0, len(frame), size):
        if last is not None:
            time.sleep(pause)
        begun = time.monotonic()
        line.send(frame[at:at + size])
        if last is not None:
            longest = max(longest, time.monotonic() - last)
        last = begun
    return longest


def test_rtu_bursts(program):
    """As adapters on USB deliver: what came in 16 milliseconds at once. Without --silence such frames are served; tries
    in which this machine itself paused for longer do not count."""
    write = asked(16, 20, 40, bytes(range(80)))
    with Line() as line, Preset(program, "--rtu", line.path, "--baud", "115200") as server:
        for frame, reply, pieces in ((rtu(READ), rtu(READ_REPLY), 2), (rtu(READ), rtu(READ_REPLY), 3),
                                     (rtu(write), rtu(write[:6]), 5)):
            for _ in range(50):
                longest = in_bursts(line, frame, pieces, 0.016)
                if longest < 0.040 or not line.is_quiet(0.5):
                    break
                time.sleep(0.2)
            same(line.receive(len(reply)), reply, f"the reply to {pieces} bursts, {longest:.3f} s between them; "
                 f"{server.log()[-1]}")
            check(line.is_quiet(0.1), "more comes than the reply")


def test_rtu_shared_line(program):
    """After the reply of another unit, a broken frame or noise the next request to us is served, although it comes
    long before the silence that ends a broken frame; what came before it is told apart from it."""
    other = rtu(bytes([7, 3, 20]) + bytes(range(20)))
    long = rtu(bytes([7, 3, 240]) + bytes(240))
    with Line() as line, Preset(program, "--rtu", line.path) as server:
        for before in (other[:-1], long[:-1], b"\0", rtu(asked(3, 0, 2, unit=7))[:-1] + b"\0", 3 * other[:-2]):
            for _ in range(50):
                line.send(before)
                time.sleep(0.012)
                line.send(rtu(READ))
                if not line.is_quiet(0.5):
                    break
            same(line.receive(9), rtu(READ_REPLY), f"the reply after {before[:4].hex()}")
            same(server.log()[-1].split()[2:4], [rtu(READ).hex().upper(), "Answered,"], "the log's last line")
            check(server.log()[-2].split()[3] in ("FrameCheck", "FrameBroken"), "what came before is not told apart")


def test_ascii_stream(program):
    """A colon begins a frame and LF ends it; what stands outside is skipped; a second of silence drops a frame."""
    ask, reply = ascii_line(READ), ascii_line(READ_REPLY)
    with Line() as line, Preset(program, "--ascii", line.path) as server:
        for stream in (b"noise" + ask, b":0103" + ask, b"\r\n\n" + ask, ask.lower() + ask, b":01" + 600 * b"0" + ask,
                       b":" + 700 * b"0" + b"\r\n" + ask):
            line.send(stream)
            same(line.receive(len(reply)), reply, f"the reply to {stream[:20]}")
        line.send(ask + ask + ask)
        same(line.receive(3 * len(reply)), 3 * reply, "the replies to three frames at once")
        line.send(ask[:9])
        time.sleep(0.3)
        line.send(ask[9:])
        same(line.receive(len(reply)), reply, "the reply to a frame with a short pause")
        line.send(ask[:9])
        time.sleep(2.5)
        line.send(ask[9:])
        check(line.is_quiet(), "a frame with a long pause is answered")
        check(any("dropped" in entry for entry in server.log()), "the dropped frame is not logged")
        exchange(line, ascii_line, READ, READ_REPLY)


def test_line_settings(program):
    """Speed and stop bits as asked for; a pseudo terminal has neither parity nor seven bits."""
    for options, speed, two_stop_bits in (((), termios.B19200, False), (("--baud", "1200"), termios.B1200, False),
                                          (("--baud", "115200", "--mode", "8N2"), termios.B115200, True),
                                          (("--baud", "921600"), termios.B921600, False),
                                          (("--baud", "4000000"), termios.B4000000, False)):
        with Line() as line, Preset(program, "--rtu", line.path, *options):
            _, _, flags, local, in_speed, out_speed, _ = termios.tcgetattr(line.other)
            same((in_speed, out_speed, bool(flags & termios.CSTOPB)), (speed, speed, two_stop_bits), f"with {options}")
            check(not local & (termios.ECHO | termios.ICANON), "the line is not raw")
            exchange(line, rtu, READ, READ_REPLY)


def test_direction(program):
    """--rs485 is for drivers that switch the direction: a pseudo terminal's does not, and that is said; one that does
    (tests/rs485.c) is told to, and its delays are kept."""
    with Line() as line, tempfile.TemporaryDirectory() as room:
        status, text, said = run(program, "--port", "0", "--rtu", line.path, "--rs485")
        same((status, text, len(said)), (1, "", 1), "status, output and lines without such a driver")
        check("does not switch the direction" in said[0], f"what is said: {said[0]}")
        driver, told = os.path.join(room, "rs485.so"), os.path.join(room, "told")
        subprocess.run(["gcc", "-shared", "-fPIC", "-Wall", "-o", driver, "tests/rs485.c", "-ldl"], check=True)
        env = {**os.environ, "LD_PRELOAD": driver, "TOLD": told}
        with Preset(program, "--rtu", line.path, "--rs485", env=env):
            exchange(line, rtu, READ, READ_REPLY)
        with open(told, encoding="ascii") as file:
            same(file.read(), "enabled 1, rts on send 1, rts after send 0, hears itself 0, delays 3 4\n", "what it was told")
        with Preset(program, "--rtu", line.path, env={**env, "TOLD": told + "2"}):
            exchange(line, rtu, READ, READ_REPLY)
        check(not os.path.exists(told + "2"), "a driver is told something though nobody asked for it")


def test_lost_line(program):
    """A line that goes away leaves the rest alone, and is used again when there is one of its name, as when an adapter
    is plugged in again; also where it is the only one."""
    with tempfile.TemporaryDirectory() as room:
        name = os.path.join(room, "adapter")
        for options in ((), ("--no-tcp",)):
            with Line() as line:
                os.symlink(line.path, name)
                with Preset(program, "--rtu", name, *options) as server:
                    exchange(line, rtu, READ, READ_REPLY)
                    line.send(rtu(READ)[:3])
                    line.close()
                    os.unlink(name)
                    soon(lambda: "is lost" in server.output(), "the lost line is not told")
                    if server.port:
                        with Client(server.port) as client:
                            same(client.ask(READ), READ_REPLY, "the reply on TCP")
                    time.sleep(1.2)
                    with Line() as back:
                        os.symlink(back.path, name)
                        soon(lambda: "is back" in server.output(), "the line is not used again")
                        exchange(back, rtu, READ, READ_REPLY)
                        same([entry.split()[-1] for entry in server.log() if entry.split()[-1] in ("lost", "back")],
                             ["lost", "back"], "the log")
            os.unlink(name)
