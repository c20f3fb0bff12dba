"""The bench tool of host/ under test, and those that it asks; the standard library alone."""
import os
import select
import socket
import subprocess
import threading

from serving import PATIENCE, Line, ascii_line, check, rtu, same, tcp

LONG = str(int(PATIENCE * 1000))  # milliseconds, where a reply is to come


def ask(tool, *words, timeout=LONG):
    """Status, lines of standard output, lines of standard error."""
    done = subprocess.run([os.path.abspath(tool), "--timeout", str(timeout), *map(str, words)], capture_output=True,
                          text=True, timeout=2 * PATIENCE + 10, check=False, stdin=subprocess.DEVNULL)
    return done.returncode, done.stdout.splitlines(), done.stderr.splitlines()


def named(words):
    return " ".join(map(str, words))[:100]


def answered(tool, wanted, *words):
    """What is asked is answered by just these lines."""
    status, out, errors = ask(tool, *words)
    same((status, errors), (0, []), f"status and errors of {named(words)}")
    same(out, wanted, f"the output of {named(words)}")


def refused(tool, says, *words, status=1, **how):
    """No value is shown; one line says why not."""
    got, out, errors = ask(tool, *words, **how)
    same((got, out, len(errors)), (status, [], 1), f"status, output and lines of {named(words)} ({errors})")
    check(errors[0].startswith("ask: ") and says in errors[0], f"'{errors[0]}' is said, and nothing of '{says}'")


def shown(table, first, values):
    return [f"{table} {first + n} {value}" for n, value in enumerate(values)]


# --- who is asked -----------------------------------------------------------------------------------------------------

class Beside:
    """What it serves goes on beside a test, in a thread of its own, until it is over."""

    def __init__(self):
        self.over = threading.Event()
        self.thread = threading.Thread(target=self.serve, daemon=True)

    def __enter__(self):
        self.thread.start()
        return self

    def __exit__(self, *_):
        self.over.set()
        self.thread.join(PATIENCE)


class Way(Beside):
    """To somebody who hears one request and says what a test has prepared: pieces of bytes, with what to do between."""

    def __init__(self):
        super().__init__()
        self.pieces, self.heard = [], b""

    def speak(self, send):
        for piece in self.pieces:
            if isinstance(piece, (int, float)):
                self.over.wait(piece)
            else:
                send(piece)


class FakeTcp(Way):
    """A TCP server; after what is prepared it keeps the connection, or closes it where None stands at the end."""
    transport, wrap = "tcp", staticmethod(tcp)

    def __init__(self):
        super().__init__()
        self.listener = socket.create_server(("127.0.0.1", 0))
        self.listener.settimeout(0.05)
        self.where = ["--tcp", f"127.0.0.1:{self.listener.getsockname()[1]}", "--transaction", "7"]

    def serve(self):
        kept = []
        while not self.over.is_set():
            try:
                client = self.listener.accept()[0]
            except TimeoutError:
                continue
            client.settimeout(PATIENCE)
            self.heard = client.recv(600)
            self.speak(lambda piece, client=client: client.sendall(piece) if piece is not None else client.close())
            kept.append(client)
        for client in kept:
            client.close()
        self.listener.close()


class FakeLine(Way):
    """At the other end of a serial line; what follows a request within a moment is one with it."""

    def __init__(self, transport):
        super().__init__()
        self.line = Line()
        self.transport, self.wrap = transport, {"rtu": rtu, "ascii": ascii_line}[transport]
        self.where = [f"--{transport}", self.line.path, *(["--silence", "200"] if transport == "rtu" else [])]

    def serve(self):
        while not self.over.is_set():
            if not select.select([self.line.master], [], [], 0.05)[0]:
                continue
            heard = b""
            while select.select([self.line.master], [], [], 0.02)[0]:
                heard += os.read(self.line.master, 600)
            self.heard = heard
            self.speak(lambda piece: os.write(self.line.master, piece))

    def __exit__(self, *how):
        super().__exit__(*how)
        self.line.close()


class Joined(Beside):
    """Two serial lines whose ends are one wire: the server's and the tool's."""

    def __init__(self):
        super().__init__()
        self.ends = Line(), Line()
        self.server, self.tool = (line.path for line in self.ends)

    def serve(self):
        masters = [line.master for line in self.ends]
        while not self.over.is_set():
            for ready in select.select(masters, [], [], 0.05)[0]:
                os.write(masters[1 - masters.index(ready)], os.read(ready, 600))

    def __exit__(self, *how):
        super().__exit__(*how)
        for line in self.ends:
            line.close()
