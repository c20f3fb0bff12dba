"""What the server says: its log, and its words to the user; nobody who does not listen may stall it."""
import os
import resource
import signal
import socket
import subprocess
import tempfile

from preset import Preset, READ, READ_REPLY, exchange
from serving import PATIENCE, Client, Line, Server, ascii_line, asked, check, exchanged, masked, rtu, same, soon, tcp, words


def test_log(program):
    """Frame in hex, outcome by name, code, cells written, reply."""
    rows_of_log = (
        (READ, "Answered, reply ", READ_REPLY), (asked(6, 7, 1), "Answered, wrote holdings 7, reply ", asked(6, 7, 1)),
        (asked(16, 4, 2, words(1, 2)), "Answered, wrote holdings 4 to 5, reply ", asked(16, 4, 2)),
        (asked(15, 9, 2, b"\3"), "Answered, wrote coils 9 to 10, reply ", asked(15, 9, 2)),
        (masked(8, 1, 2), "Answered, wrote holdings 8, reply ", masked(8, 1, 2)),
        (exchanged(0, 2, 4, words(1, 2)), "Answered, wrote holdings 4 to 5, reply ", b"\1\x17" + READ_REPLY[2:]),
        (exchanged(0, 2, 6, words(3)), "Answered, wrote holdings 6, reply ", b"\1\x17" + READ_REPLY[2:]),
        (exchanged(999, 2, 4, words(1, 2)), "Exception 2, reply ", b"\1\x97\2"),
        (masked(8, 1, 2, unit=0), "BroadcastDone, wrote holdings 8", b""),
        (exchanged(0, 2, 4, words(1, 2), unit=0), "BroadcastIgnored", b""),
        (asked(3, 999, 2), "Exception 2, reply ", b"\1\x83\2"),
        (asked(5, 1, 0, unit=0), "BroadcastDone, wrote coils 1", b""),
        (asked(3, 1, 1, unit=0), "BroadcastIgnored", b""), (asked(5, 1, 1, unit=0), "BroadcastIgnored 3", b""),
        (asked(6, 1, 1, unit=2), "Foreign", b""), (READ[:4], "WrongLength", b""), (READ + b"\0", "WrongLength", b""),
        (b"\1\x80" + READ[2:], "BadFunction", b""), (READ, "Answered, reply ", READ_REPLY))
    with Preset(program) as server, Client(server.port) as client:
        client.send(b"".join(tcp(body) for body, _, _ in rows_of_log))
        client.socket.shutdown(socket.SHUT_WR)
        client.closed()
        name = f"tcp 127.0.0.1:{client.socket.getsockname()[1]}: "
        soon(lambda: server.log()[-1] == name + "gone", "the client's end is not logged")
        wanted = [f"{tcp(body).hex().upper()} {text}{tcp(reply).hex().upper() if reply else ''}"
                  for body, text, reply in rows_of_log]
        same(server.log(), [name + entry for entry in ["came", *wanted, "gone"]], "the log")
    rows_of_line = ((asked(16, 4, 2, words(1, 2)), "wrote holdings 4 to 5", asked(16, 4, 2)),
                    (exchanged(3, 2, 7, words(1, 2, 3)), "wrote holdings 7 to 9", b"\1\x17\4" + words(0, 1)))
    with Line() as end, Server(program, "--ascii", end.path) as server:
        for body, _, reply in rows_of_line:
            exchange(end, ascii_line, body, reply)
        same(server.log(), [f"ascii {end.path}: {ascii_line(body).hex().upper()} Answered, {wrote}, reply "
                            + ascii_line(reply).hex().upper() for body, wrote, reply in rows_of_line], "the log of a line")


def ask_often(client, times):
    """In batches of 50."""
    for _ in range(times // 50):
        client.send(50 * tcp(READ))
        same(client.receive(50 * 13), 50 * tcp(READ_REPLY), "50 replies")


def test_stalled_log(program):
    """A log that nobody reads stalls nobody: the server serves on and ends by SIGTERM. What was lost is counted when
    somebody reads again."""
    for how in ("left", "read", "gone"):
        reader, writer = os.pipe()
        with Preset(program, "--log", "-", stdout=writer) as server, open(reader, "rb") as log:
            os.close(writer)
            head = b""
            while b"Control-C" not in head:
                head += os.read(log.fileno(), 4096)
            with Client(int(head.split(b"\n")[0].rpartition(b":")[2])) as client:
                if how == "gone":
                    log.close()
                ask_often(client, 3000)
                if how == "read":
                    lines = b""
                    while b" lines are missing here\n" not in lines:
                        lines += os.read(log.fileno(), 65536)
                    whole = lines.partition(b" lines are missing here")[0].split(b"\n")
                    same(sum(b"Answered" in line for line in whole) + int(whole[-1]), 3000, "lines that came or are missing")
            same(server.end(signal.SIGTERM), 0, f"the status after SIGTERM with a log that is {how}")
            if how == "gone":
                check("standard output cannot be written: Broken pipe" in server.output(), "no word of a log that is gone")


def test_log_on_a_full_disk(program):
    """Said once, on standard error; the server goes on."""
    with tempfile.TemporaryDirectory() as room:
        full = {"preexec_fn": lambda: resource.setrlimit(resource.RLIMIT_FSIZE, (20000, 20000))}
        text = os.path.join(room, "text")
        with open(text, "w", encoding="utf-8") as file:
            file.write("dalonjang tables\nholdings 0 258 772\nend\n")
        with Server(program, "--import", text, **full) as server, Client(server.port) as client:
            ask_often(client, 1000)
            wanted = f"dalonjang: {server.log_path} cannot be written: File too large"
            same(server.output().splitlines().count(wanted), 1, "how often it is said")


def test_closed_streams(program):
    """With the standard streams closed no text of theirs reaches a line or a client."""
    with Line() as line:
        command = ["bash", "-c", 'exec "$@" <&- >&- 2>&-', "bash", os.path.abspath(program), "--no-tcp", "--rtu", line.path]
        server = subprocess.Popen(command)
        try:
            exchange_until(line, server)
            exchange(line, rtu, asked(6, 3, 4), asked(6, 3, 4))
            server.send_signal(signal.SIGTERM)
            same(server.wait(PATIENCE), 0, "the status after SIGTERM")
        finally:
            server.kill()
            server.wait()


def exchange_until(line, server):
    """The first reply of a server that cannot say that it is ready: it is asked until it answers, perhaps twice."""
    wanted, got = rtu(asked(6, 1, 2)), b""

    def answered():
        check(server.poll() is None, f"the server ended with {server.returncode}")
        line.send(wanted)
        return not line.is_quiet(2)
    soon(answered, "no reply")
    while not line.is_quiet(2):
        got += os.read(line.master, 100)
    same(got, len(got) // len(wanted) * wanted, "the first replies")


def test_hints(program):
    """Who asks unit 0 or 255 over TCP, as some clients do by default, is told of on standard error, once a number."""
    with Server(program) as server, Client(server.port) as client:
        for _ in range(3):
            client.send(tcp(asked(3, 0, 1, unit=255)) + tcp(asked(3, 0, 1, unit=0)) + tcp(asked(3, 0, 1, unit=9)))
        same(client.ask(asked(3, 0, 1)), bytes([1, 3, 2, 0, 0]), "the reply to unit 1")
        name = f"dalonjang: tcp 127.0.0.1:{client.socket.getsockname()[1]} asks unit"
        same([line for line in server.output().splitlines() if "asks unit" in line],
             [f"{name} 255 and gets no reply: ours is 1 (--unit 255 would serve it)",
              f"{name} 0 and gets no reply: ours is 1 (--unit 0 --broadcast none would serve it)"], "the hints")
    with Server(program, "--unit", "0", "--broadcast", "none") as server, Client(server.port) as client:
        same(client.ask(asked(3, 0, 1, unit=0)), bytes([0, 3, 2, 0, 0]), "the reply of unit 0")
