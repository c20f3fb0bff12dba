"""The bench tool and those that reply with something else: no value is ever shown."""
from asking import FakeLine, FakeTcp, answered, ask, refused
from serving import asked, check, exchanged, masked, same, tcp, words

READ = ["read", "holdings", 0, 2]
RIGHT = bytes([1, 3, 4]) + words(258, 772)
WRITE = ["write", "holdings", 5, 77, 78]

# replies to READ that are none, and what is said of them
OTHERS = (
    (bytes([2]) + RIGHT[1:], "NotMyReply (12)"), (bytes([0]) + RIGHT[1:], "NotMyReply"),
    (bytes([1, 4]) + RIGHT[2:], "NotMyReply"), (bytes([1, 1]) + RIGHT[2:], "NotMyReply"),
    (bytes([1, 3, 2]) + words(258), "NotMyReply"), (bytes([1, 3, 6]) + words(258, 772, 9), "NotMyReply"),
    (bytes([1, 3, 2]) + words(258, 772), "NotMyReply"), (RIGHT[:-1], "NotMyReply"), (RIGHT + b"\0", "NotMyReply"),
    (asked(3, 0, 2), "NotMyReply"), (bytes([1, 3]), "NotMyReply"),
    (bytes([1, 0x83, 2]), "unit 1 refused: exception 2, illegal data address"),
    (bytes([1, 0x83, 11]), "exception 11, gateway target failed to respond"),
    (bytes([1, 0x83, 200]), "exception 200, a code of the unit's own"),
    (bytes([1, 0x84, 2]), "NotMyReply"), (bytes([1, 0x83, 0]), "NotMyReply"), (bytes([2, 0x83, 2]), "NotMyReply"),
    (bytes([1, 0x83, 2, 0]), "NotMyReply"))

# the same for WRITE
ECHOES = ((asked(16, 5, 1), "NotMyReply"), (asked(16, 4, 2), "NotMyReply"), (asked(6, 5, 2), "NotMyReply"),
          (asked(16, 5, 2, unit=3), "NotMyReply"), (asked(16, 5, 2)[:5], "NotMyReply"),
          (asked(16, 5, 2, words(77, 78)), "NotMyReply"), (bytes([1, 0x90, 4]), "exception 4, server device failure"))

MASK = ["mask", 2, "0xF2", "0x25"]
MASKS = ((masked(3, 0xF2, 0x25), "NotMyReply"), (masked(2, 0xF3, 0x25), "NotMyReply"),
         (masked(2, 0xF2, 0x24), "NotMyReply"), (masked(2, 0xF2, 0x25)[:6], "NotMyReply"),
         (masked(2, 0xF2, 0x25) + b"\0", "NotMyReply"), (masked(2, 0xF2, 0x25, unit=3), "NotMyReply"),
         (bytes([1, 0x96, 2]), "exception 2, illegal data address"))

EXCHANGE = ["exchange", 0, 2, 5, 77, 78, 79]
READ_THEN = bytes([1, 23]) + RIGHT[2:]
EXCHANGES = ((RIGHT, "NotMyReply"), (bytes([1, 23, 6]) + words(77, 78, 79), "NotMyReply"), (READ_THEN[:-1], "NotMyReply"),
             (READ_THEN + b"\0", "NotMyReply"), (exchanged(0, 2, 5, words(77, 78, 79)), "NotMyReply"),
             (bytes([3]) + READ_THEN[1:], "NotMyReply"), (bytes([1, 0x97, 3]), "exception 3, illegal data value"))


def whoever(tool, fake):
    """What is the same on every transport."""
    fake.pieces = [fake.wrap(RIGHT)]
    answered(tool, ["holdings 0 258", "holdings 1 772"], *fake.where, *READ)
    same(fake.heard, fake.wrap(asked(3, 0, 2)), "the request")
    fake.pieces = [fake.wrap(asked(16, 5, 2))]
    answered(tool, ["written: 2 holdings from 5 on"], *fake.where, *WRITE)
    same(fake.heard, fake.wrap(asked(16, 5, 2, words(77, 78))), "the request")
    fake.pieces = [fake.wrap(masked(2, 0xF2, 0x25))]
    answered(tool, ["masked: holding 2 by 0x00F2 and 0x0025"], *fake.where, *MASK)
    same(fake.heard, fake.wrap(masked(2, 0xF2, 0x25)), "the request")
    fake.pieces = [fake.wrap(READ_THEN)]
    answered(tool, ["written: 3 holdings from 5 on", "holdings 0 258", "holdings 1 772"], *fake.where, *EXCHANGE)
    same(fake.heard, fake.wrap(exchanged(0, 2, 5, words(77, 78, 79))), "the request")
    for words_asked, replies in ((READ, OTHERS), (WRITE, ECHOES), (MASK, MASKS), (EXCHANGE, EXCHANGES)):
        for body, says in replies:
            fake.pieces = [fake.wrap(body)]
            refused(tool, says, *fake.where, *words_asked)
    fake.pieces = []
    refused(tool, "no reply within 250 milliseconds: timeout", *fake.where, *READ, timeout=250)


def test_tcp_fakes(tool, _):
    with FakeTcp() as fake:
        whoever(tool, fake)
        for piece, says in ((tcp(RIGHT, 8), "NotMyReply"), (tcp(RIGHT, 0x107), "NotMyReply"),
                            (tcp(bytes([1, 0x83, 2]), 8), "NotMyReply"),
                            (b"\0\7\0\1\0\7" + RIGHT, "FrameBroken (5)"), (b"\0\7\0\0\xff\xff" + RIGHT, "FrameBroken"),
                            (b"\0\7\0\0\0\1\1", "FrameBroken"), (b"HTTP/1.1 400 Bad Request\r\n\r\n", "FrameBroken")):
            fake.pieces = [piece]
            refused(tool, says, *fake.where, *READ)
        fake.pieces = [part for byte in tcp(RIGHT) for part in (bytes([byte]), 0.002)]
        answered(tool, ["holdings 0 258", "holdings 1 772"], *fake.where, *READ)
        fake.pieces = [tcp(RIGHT) + tcp(RIGHT, 8)]
        answered(tool, ["holdings 0 258", "holdings 1 772"], *fake.where, *READ)
        fake.pieces = [tcp(RIGHT)[:-1]]
        refused(tool, "did not come to an end in time: timeout", *fake.where, *READ, timeout=2000)
        fake.pieces = [tcp(RIGHT)[:-1], None]
        refused(tool, "did not come to an end: the other side closed", *fake.where, *READ)
        fake.pieces = [None]
        refused(tool, "closed and sent no reply", *fake.where, *READ)


def test_rtu_fakes(tool, _):
    with FakeLine("rtu") as fake:
        whoever(tool, fake)
        right = fake.wrap(RIGHT)
        for stream, says in ((right[:-1] + bytes([right[-1] ^ 1]), "FrameCheck (6)"), (right[:-1], "FrameCheck"),
                             (b"\1\3\4", "FrameBroken (5)"), (bytes(300), "FrameBroken"), (b"\0" + right, "FrameCheck")):
            fake.pieces = [stream]
            refused(tool, says, *fake.where, *READ)
        fake.pieces = [part for byte in right for part in (bytes([byte]), 0.01)]
        answered(tool, ["holdings 0 258", "holdings 1 772"], *fake.where, "--silence", 3000, *READ)


def test_ascii_fakes(tool, _):
    with FakeLine("ascii") as fake:
        whoever(tool, fake)
        right = fake.wrap(RIGHT)
        for stream, says in ((right.lower(), "FrameBroken (5)"), (right[:-3] + b"0\r\n", "FrameCheck (6)"),
                             (right[:-2] + b"\n", "FrameBroken"), (b":" + 700 * b"0" + b"\r\n", "FrameBroken")):
            fake.pieces = [stream]
            refused(tool, says, *fake.where, *READ)
        for before in (b"noise\r\n", b":0103", b"\0\n"):
            fake.pieces = [before + right]
            answered(tool, ["holdings 0 258", "holdings 1 772"], *fake.where, *READ)
        fake.pieces = [right[:-1]]
        refused(tool, "did not come to an end in time: timeout", *fake.where, *READ, timeout=2000)


def test_frames(tool, _):
    """What went and came, in hex; the transaction and the unit as they were asked for."""
    with FakeTcp() as fake:
        body = bytes([17, 3, 2, 0, 9])
        fake.pieces = [tcp(body, 0xABCD)]
        status, out, errors = ask(tool, *fake.where, "--transaction", "0xABCD", "--unit", 17, "--frames",
                                  "read", "holdings", 107, 1)
        same((status, out), (0, ["holdings 107 9"]), "status and output")
        same(errors, ["ask: sent " + tcp(asked(3, 107, 1, unit=17), 0xABCD).hex(" ").upper(),
                      "ask: came " + tcp(body, 0xABCD).hex(" ").upper()], "the frames")
        check(fake.heard == tcp(asked(3, 107, 1, unit=17), 0xABCD), "another request was sent")
