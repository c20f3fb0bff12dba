#!/usr/bin/python3
"""line.py LIST MACHINE STATION.elf [OPTION..]: the cases of the list (crates/cases/stdin, whose head says what a record
is) that are RTU frames to the station's unit and tables, over the emulated board's UART: reply, outcome, the cells that
are named, and both tables read back. Before each the tables are written as the case has them. Where this machine was so
busy that a frame came to the board in pieces, that case is made again.
Status: 0 all as the list says, 1 a difference, which is said."""
import atexit
import os
import pathlib
import re
import socket
import subprocess
import sys
import tempfile

PATIENCE = int(os.environ.get("PATIENCE", "20"))  # seconds for anything
COILS, HOLDINGS = 2, 8  # bytes
MOST = 257  # bytes of a frame that the station keeps: one more than a frame has


class Pieces(Exception):
    """A frame came in pieces."""


def wrong(what):
    print(f"wrong: {what}")
    sys.exit(1)


def with_crc(text):
    body, crc = bytes.fromhex(text), 0xFFFF
    for byte in body:
        crc ^= byte
        for _ in range(8):
            crc = crc >> 1 ^ (0xA001 if crc & 1 else 0)
    return body + crc.to_bytes(2, "little")


def numbers(head, record):
    """The numbers that a line of the list's head has, by name, and what is left of the record."""
    found = {}
    for name, width in re.findall(r" (\w+) (\d+)", head.partition(":")[2]):
        found[name], record = int.from_bytes(record[:int(width)], "big"), record[int(width):]
    return found, record


def taken(heads, record):
    """The numbers of a record, those of its four tables, and its parts."""
    found, tables, parts = {}, [], []
    for head in heads[:3]:
        more, record = numbers(head, record)
        found |= more
    for _ in range(4):
        more, record = numbers(heads[3], record)
        tables.append(more)
    lengths, record = [int.from_bytes(record[2 * p:2 * p + 2], "big") for p in range(8)], record[16:]
    for length in lengths:
        parts.append(record[:length])
        record = record[length:]
    return found, tables, parts


def cases(path):
    """name, frame, (reply, outcome, cells named), (coils, holdings) before and after."""
    name, heads = "", []
    for line in pathlib.Path(path).read_text().splitlines():
        if line.startswith("#   "):
            heads.append(line)
        if line.startswith("#"):
            name = line[2:]
            continue
        setup, _ = numbers(heads[0], bytes.fromhex(line))
        found, tables, (listed, frame, reply, changed, *fronts) = taken(heads, bytes.fromhex(line))
        sizes = [(table["len"], table["cells"]) for table in tables]
        ours = {key: number for key, number in setup.items() if number} == {"unit": 1}  # all else is 0, as the station's
        if not ours or listed != b"\0" or found["room"] != 260 or not frame:
            continue
        if sizes != [(COILS, 16), (0, 0), (HOLDINGS, 4), (0, 0)]:
            continue
        before = [(fronts[t] + bytes([tables[t]["fill"]]) * HOLDINGS)[:sizes[t][0]] for t in (0, 2)]
        after = [bytearray(b) for b in before]
        if changed:
            after[found["changing"] // 2][found["from"]:found["from"] + len(changed)] = changed
        named = found["table"], found["first"], found["count"]
        yield name, frame, (reply, found["outcome"], named), before, [bytes(a) for a in after]


class Board:
    def __init__(self, command):
        self.room = tempfile.TemporaryDirectory()
        ends = []
        for name in "uart", "log":
            ends.append(socket.socket(socket.AF_UNIX))
            ends[-1].bind(f"{self.room.name}/{name}")
            ends[-1].listen()
            ends[-1].settimeout(PATIENCE)
        self.process = subprocess.Popen(command + [
            "-chardev", f"socket,id=uart,path={self.room.name}/uart", "-serial", "chardev:uart",
            "-chardev", f"socket,id=log,path={self.room.name}/log",
            "-semihosting-config", "enable=on,target=native,chardev=log"])
        atexit.register(self.process.kill)
        self.uart, log = (end.accept()[0] for end in ends)
        self.uart.settimeout(PATIENCE)
        log.settimeout(PATIENCE)
        self.lines = log.makefile()
        if self.line() != "ready":
            wrong("the station does not start")

    def line(self):
        try:
            return self.lines.readline().rstrip("\n")
        except OSError:
            wrong("the station says nothing")

    def ask(self, frame):
        """The reply, the outcome, and table, first and count of what was written. The console says what became of a
        frame, so one without a reply needs no waiting."""
        self.uart.sendall(frame)
        came, pieces = 0, 0
        while came < min(len(frame), MOST):
            said = self.line().split()
            if len(said) != 6 or not all(word.isdigit() for word in said):
                wrong(f"the station says {said}")
            outcome, length, taken, *named = map(int, said)
            came, pieces = came + taken, pieces + 1
        if pieces > 1:
            raise Pieces
        reply = b""
        while len(reply) < length:
            try:
                reply += self.uart.recv(length - len(reply))
            except OSError:
                wrong(f"of a reply of {length} bytes {len(reply)} came")
        return reply, outcome, tuple(named)


def make_case(board, case, state):
    """The tables after it; `state` is what they are before, if that is known."""
    name, frame, wanted, before, after = case
    if state != before:
        for text in f"010F0000001002{before[0].hex()}", f"01100000000408{before[1].hex()}":
            if board.ask(with_crc(text))[1] != 0:
                wrong(f"{name}: the tables before it")
    got = board.ask(frame)
    if got != wanted:
        wrong(f"{name}: (reply, outcome, cells named) {got}, not {wanted}")
    if board.ask(with_crc("010100000010"))[0] != with_crc(f"010102{after[0].hex()}"):
        wrong(f"{name}: the coils afterwards")
    if board.ask(with_crc("010300000004"))[0] != with_crc(f"010308{after[1].hex()}"):
        wrong(f"{name}: the holdings afterwards")
    return after


def main(path, machine, station, *options):
    board = Board(["qemu-system-arm", "-display", "none", "-monitor", "none", "-M", machine, *options, "-kernel", station])
    count, again, state = 0, 0, None
    for case in cases(path):
        while True:
            try:
                state = make_case(board, case, state)
                break
            except Pieces:
                again, state = again + 1, None
                if again > count + 10:
                    wrong(f"{case[0]}: its frame never came in one piece")
        count += 1
    if count == 0:
        wrong("the list has no case for this station")
    print(f"{count} cases over the UART")


main(*sys.argv[1:])
