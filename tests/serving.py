"""A server of host/ under test, and plain Modbus clients for it; the standard library alone."""
import contextlib
import os
import pty
import random
import select
import signal
import socket
import struct
import subprocess
import sys
import tempfile
import time
import tty

# seconds within which whatever is due must come, on a busy machine too; less where something wrong is awaited
PATIENCE = float(os.environ.get("PATIENCE", "20"))
QUIET = 0.4  # seconds without a byte that count as "no reply"


class Wrong(Exception):
    """What is not as it should be."""


def check(fine, what):
    if not fine:
        raise Wrong(what)


def same(got, wanted, what):
    if got != wanted and isinstance(wanted, list):  # the first entry that differs says enough
        at = next((n for n, pair in enumerate(zip(got, wanted)) if pair[0] != pair[1]), min(len(got), len(wanted)))
        got, wanted, what = got[at:at + 1], wanted[at:at + 1], f"{what}, entry {at}"
    check(got == wanted, f"{what}: {shown(got)} in place of {shown(wanted)}")


def run_tests(parts, words, names):
    """The tests of these names, or all that the parts have, with these words. Answers the status: 0 all as said, 1
    something is wrong (a line says what)."""
    tests = {name[5:]: test for part in parts for name, test in vars(part).items() if name.startswith("test_")}
    for name in names or tests:
        try:
            tests[name](*words)
        except (Wrong, OSError, subprocess.TimeoutExpired) as fault:
            print(f"wrong: {name}: {fault}")
            return 1
    print(f"{len(names or tests)} tests, all as they should be: {', '.join(names or tests).replace('_', ' ')}")
    return 0


def shown(value):
    return value.hex() or "nothing" if isinstance(value, bytes) else repr(value)


def soon(condition, what):
    """Waits until it holds."""
    end = time.monotonic() + PATIENCE
    while not condition():
        check(time.monotonic() < end, what)
        time.sleep(0.02)


# --- frames -----------------------------------------------------------------------------------------------------------

def asked(function, start, count, data=None, unit=1):
    """A request from the unit byte on."""
    body = struct.pack(">BBHH", unit, function, start, count)
    return body if data is None else body + bytes([len(data)]) + data


def masked(holding, kept, others, unit=1):
    """A mask write, function 22, and its reply."""
    return struct.pack(">BBHHH", unit, 22, holding, kept, others)


def exchanged(start, count, first, data, unit=1):
    """Function 23, which writes the data from `first` on and reads from `start` on."""
    return asked(23, start, count, unit=unit) + struct.pack(">HHB", first, len(data) // 2, len(data)) + data


def words(*values):
    return struct.pack(f">{len(values)}H", *values)


def values_of(reply):
    """The registers in the reply to function 3 or 4."""
    return list(struct.unpack(f">{reply[2] // 2}H", reply[3:]))


def tcp(body, transaction=7):
    return struct.pack(">HHH", transaction, 0, len(body)) + body


def crc(body):
    check_sum = 0xFFFF
    for byte in body:
        check_sum ^= byte
        for _ in range(8):
            check_sum = check_sum >> 1 ^ (0xA001 if check_sum & 1 else 0)
    return struct.pack("<H", check_sum)


def rtu(body):
    return body + crc(body)


def ascii_line(body):
    return b":" + (body + bytes([-sum(body) & 0xFF])).hex().upper().encode() + b"\r\n"


# --- the server -------------------------------------------------------------------------------------------------------

def run(program, *options, descriptors=1024, **how):
    """Of a server that shall not start: status, standard output, lines of standard error."""
    command = ["bash", "-c", f'ulimit -Sn {descriptors} && exec "$@"', "bash", os.path.abspath(program), *options]
    done = subprocess.run(command, capture_output=True, text=True, timeout=PATIENCE, check=False, **how)
    return done.returncode, done.stdout, done.stderr.splitlines()


class Server:
    """Runs from `with` on, and must end by SIGINT with status 0."""

    def __init__(self, program, *options, port="0", **how):
        self.room = tempfile.TemporaryDirectory()
        self.log_path = os.path.join(self.room.name, "log")
        self.said = open(os.path.join(self.room.name, "said"), "w+", encoding="utf-8")
        how = {"stdout": self.said, "stderr": self.said, **how}
        self.ready = how["stdout"] is not self.said  # where it says so, nobody here hears it
        self.process = subprocess.Popen([os.path.abspath(program), "--port", port, "--log", self.log_path, *options],
                                        **how)
        self.port = None

    def __enter__(self):
        end = time.monotonic() + 60
        while not self.ready and "Control-C" not in self.output():
            if self.process.poll() is not None or time.monotonic() > end:
                self.kill()
                sys.exit(f"the server does not start: {self.output()}")  # no test has seen anything then
            time.sleep(0.02)
        first = self.output().partition("\n")[0]
        self.port = int(first.rpartition(":")[2]) if "TCP" in first else None
        return self

    def __exit__(self, kind, *_):
        try:
            if kind is None and self.process.poll() is None:
                same(self.end(), 0, "the status after SIGINT")
        finally:
            self.kill()
            self.said.close()
            self.room.cleanup()

    def output(self):
        with open(self.said.name, encoding="utf-8") as said:
            return said.read()

    def log(self):
        """Without the times."""
        with open(self.log_path, encoding="utf-8") as log:
            return [line.split(" ", 1)[1] for line in log.read().splitlines()]

    def end(self, by=signal.SIGINT):
        self.process.send_signal(by)
        return self.process.wait(PATIENCE)

    def kill(self):
        self.process.kill()
        self.process.wait()


# --- who asks ---------------------------------------------------------------------------------------------------------

class Client:
    """One TCP connection."""

    def __init__(self, port, receive_room=None, address="127.0.0.1"):
        self.socket = socket.socket(socket.AF_INET6 if ":" in address else socket.AF_INET)
        if receive_room:
            self.socket.setsockopt(socket.SOL_SOCKET, socket.SO_RCVBUF, receive_room)
        self.socket.settimeout(PATIENCE)
        self.socket.connect((address, port))
        self.transaction = random.randrange(65536)

    def send(self, stream):
        self.socket.sendall(stream)

    def receive(self, length):
        got = b""
        while len(got) < length:
            check(not self.is_quiet(PATIENCE), f"{len(got)} of {length} bytes came: {shown(got)}")
            more = self.socket.recv(length - len(got))
            check(more, f"the server closed after {len(got)} of {length} bytes")
            got += more
        return got

    def reply(self):
        """The next reply: its transaction, and its bytes from the unit on."""
        transaction, protocol, length = struct.unpack(">HHH", self.receive(6))
        same(protocol, 0, "the protocol of a reply")
        return transaction, self.receive(length)

    def ask(self, body):
        self.transaction = (self.transaction + 1) % 65536
        self.send(tcp(body, self.transaction))
        transaction, reply = self.reply()
        same(transaction, self.transaction, "the transaction")
        return reply

    def is_quiet(self, seconds=QUIET):
        return not select.select([self.socket], [], [], seconds)[0]

    def closed(self):
        """What still comes until the server closes; a connection that is reset may lose some, and is an error."""
        rest = b""
        while more := self.socket.recv(65536):
            rest += more
        return rest

    def close(self):
        self.socket.close()

    def __enter__(self):
        return self

    def __exit__(self, *_):
        self.close()


class Line:
    """The master's end of a pseudo terminal; the server is given the path of the other."""

    def __init__(self):
        self.master, self.other = pty.openpty()
        tty.setraw(self.other)
        self.path = os.ttyname(self.other)

    def send(self, stream):
        os.write(self.master, stream)

    def receive(self, length):
        got = b""
        while len(got) < length:
            check(not self.is_quiet(PATIENCE), f"{len(got)} of {length} bytes came: {shown(got)}")
            got += os.read(self.master, length - len(got))
        return got

    def is_quiet(self, seconds=QUIET):
        return not select.select([self.master], [], [], seconds)[0]

    def close(self):
        os.close(self.master)
        os.close(self.other)

    def __enter__(self):
        return self

    def __exit__(self, *_):
        with contextlib.suppress(OSError):
            self.close()
