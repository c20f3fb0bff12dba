"""peers PROGRAM RUN..: real Modbus clients against the server PROGRAM of host/. A run is mbpoll:tcp, mbpoll:rtu,
pymodbus:tcp, pymodbus:rtu, pymodbus:ascii, libmodbus:tcp or libmodbus:rtu, each client alone; or crowd:NAME,NAME.., as
many as eight of these clients at once over TCP, beside broken streams. A line for each says what was done; the last says
what the program $LINECOUNT finds in the raw logs of the RTU lines: as many frames as were sent.
Status: 0 all right, 1 something is wrong (a line says what)."""
import contextlib
import os
import re
import subprocess
import sys
import tempfile
import threading

from peer_plan import CELLS, IMAGE
from serving import Client, Server, Wrong, asked, check, same, soon, tcp

PYTHON = "/usr/bin/python3"
COMMAND = {"mbpoll": [PYTHON, "tests/peer_mbpoll.py"], "pymodbus": [PYTHON, "tests/peer_pymodbus.py"],
           "libmodbus": ["out/peer_libmodbus"]}
CROWD = 8
LIMIT = 120  # seconds for one client
STRIDE = CELLS // CROWD
SENT = []  # the frames and replies of RTU lines, in the order of the raw logs
RAW = []


def start(name, transport, where, number):
    return subprocess.Popen([*COMMAND[name], transport, str(where), str(number * STRIDE)],
                            stdout=subprocess.PIPE, stderr=subprocess.STDOUT, text=True)


def outcome(name, client):
    """What a client says that it did; that it ends with another status than 0 is wrong."""
    try:
        said, _ = client.communicate(timeout=LIMIT)
    except subprocess.TimeoutExpired as late:
        raise Wrong(f"{name} did not end") from late
    finally:
        client.kill()
        client.wait()
    last = said.strip().splitlines()[-1:] or ["nothing"]
    check(client.returncode == 0, f"{name} ended with {client.returncode}: {last[0].removeprefix('wrong: ')}")
    return last[0]


@contextlib.contextmanager
def wire(room):
    """Two pseudo terminals joined by socat: the server's end and the client's."""
    ends = [os.path.join(room, end) for end in ("server", "client")]
    socat = subprocess.Popen(["socat", *(f"pty,raw,echo=0,link={end}" for end in ends)])
    try:
        soon(lambda: all(map(os.path.exists, ends)), "socat makes no pseudo terminals")
        yield ends
    finally:
        socat.terminate()
        socat.wait()


def alone(program, name, transport, text):
    with contextlib.ExitStack() as stack:
        options, where = ["--import", text, "--image", text + ".db", "--cells", str(CELLS)], None
        if transport != "tcp":
            own, where = stack.enter_context(wire(os.path.dirname(text)))
            options += [f"--{transport}", own]
        if transport == "rtu":
            options += ["--raw", text + ".raw"]
        server = stack.enter_context(Server(program, *options))
        said = outcome(name, start(name, transport, where or server.port, 0))
        if transport == "rtu":
            SENT.extend(bytes.fromhex(part) for line in server.log() for part in re.findall(r"(?:: |reply )([0-9A-F]+)", line))
            with open(text + ".raw", "rb") as raw:
                RAW.append(raw.read())
        print(f"{name} over {transport.upper()}: functions {said}", flush=True)


BROKEN = (b"GET / HTTP/1.1\r\n\r\n", b"\0\1\0\0\xff\xff" + bytes(300), b"\0\1\0\0\0\0", tcp(asked(3, 0, 1))[:9],
          b"\0\1\0\1\0\6" + asked(3, 0, 1), bytes(range(256)) * 8)


def crowd(program, names, text):
    over, sent = threading.Event(), [0]

    def break_streams(port):
        while not over.is_set():
            with contextlib.suppress(OSError), Client(port) as client:
                client.send(BROKEN[sent[0] % len(BROKEN)])
                sent[0] += 1
                over.wait(0.01)
    with Server(program, "--import", text, "--image", text + ".db", "--cells", str(CELLS)) as server:
        noise = threading.Thread(target=break_streams, args=(server.port,))
        noise.start()
        try:
            names = (names * CROWD)[:CROWD]
            clients = [start(name, "tcp", server.port, n) for n, name in enumerate(names)]
            faults = []
            for name, client in zip(names, clients):
                try:
                    outcome(name, client)
                except Wrong as fault:
                    faults.append(str(fault))
        finally:
            over.set()
            noise.join()
        check(not faults, f"of {CROWD} clients at once, {'; '.join(faults)}")
        check(sent[0] > 20, f"only {sent[0]} broken streams")
    print(f"{CROWD} clients at once over TCP, the same each, beside {sent[0]} broken streams: all right")


def count_raw():
    """The raw logs one behind the other are a log: linecount finds each frame and each reply in it. Of a frame whose CRC ends
    in 00 it takes all but that byte, since what is before it is a frame by itself."""
    said = subprocess.run([os.environ["LINECOUNT"]], input=b"".join(RAW), capture_output=True, timeout=LIMIT, check=True).stdout
    sent, short = len(SENT), sum(one.endswith(b"\0") for one in SENT)
    same(said.decode(), f"records {sent}\nframes {sent}\nframe bytes {sum(map(len, SENT)) - short}\nother bytes {short}\n",
         "what linecount says of the raw logs")
    print(f"linecount: {sent} frames and replies over RTU by real clients, as many as were sent")


def main():
    program, *runs = sys.argv[1:]
    for run in runs:
        what, _, how = run.partition(":")
        with tempfile.TemporaryDirectory() as room:
            text = os.path.join(room, "text")
            with open(text, "w", encoding="utf-8") as file:
                file.write(IMAGE)
            try:
                if what == "crowd":
                    crowd(program, how.split(","), text)
                else:
                    alone(program, what, how, text)
            except (Wrong, OSError) as fault:
                print(f"wrong: {run}: {fault}")
                return 1
    if RAW and "LINECOUNT" in os.environ:
        try:
            count_raw()
        except (Wrong, OSError) as fault:
            print(f"wrong: linecount: {fault}")
            return 1
    return 0


if __name__ == "__main__":
    sys.exit(main())
