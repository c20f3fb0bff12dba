"""Requests to the server and their replies, over each transport."""
from preset import Preset, READ, READ_REPLY, exchange
from serving import Client, Line, Server, ascii_line, asked, check, exchanged, masked, rtu, same, soon, tcp, words


def rows(most_coils, most_registers):
    """Every function on the preset tables, the exceptions, the edges; what is asked, and the reply or b"" for none.
    Reads after the writes look at what was stored."""
    coils = bytes(n * 37 % 256 for n in range(most_coils // 8))
    registers = words(*(n * 517 for n in range(most_registers)))
    exchange_most = words(*(n * 401 for n in range(121)))
    return (
        (asked(3, 0, 4), bytes([1, 3, 8]) + words(258, 772, 0, 65535)),
        (asked(4, 0, 2), bytes([1, 4, 4]) + words(17, 0x1234)),
        (asked(4, 999, 1), bytes([1, 4, 2]) + words(65535)),
        (asked(2, 0, 5), bytes([1, 2, 1, 0b01101])),
        (asked(2, 997, 3), bytes([1, 2, 1, 0b101])),
        (asked(1, 7, 4), bytes([1, 1, 1, 0b0110])),
        (asked(5, 3, 0xFF00), asked(5, 3, 0xFF00)),
        (asked(15, 4, 3, b"\x05"), asked(15, 4, 3)),
        (asked(1, 0, 16), bytes([1, 1, 2, 0b01011000, 0b11])),
        (asked(6, 2, 0xABCD), asked(6, 2, 0xABCD)),
        (asked(16, 4, 2, words(1, 65535)), asked(16, 4, 2)),
        (asked(3, 2, 4), bytes([1, 3, 8]) + words(0xABCD, 65535, 1, 65535)),
        (asked(3, 999, 1), bytes([1, 3, 2]) + words(4711)),
        (asked(3, 999, 2), bytes([1, 0x83, 2])),
        (asked(6, 65535, 1), bytes([1, 0x86, 2])),
        (asked(3, 0, 0), bytes([1, 0x83, 3])),
        (asked(4, 0, 126), bytes([1, 0x84, 3])),
        (asked(5, 0, 1), bytes([1, 0x85, 3])),
        (asked(43, 0x0E01, 0), bytes([1, 0xAB, 1])),
        (asked(6, 9, 9, unit=2), b""),
        (asked(6, 8, 88, unit=0), b""),
        (asked(3, 8, 1, unit=0), b""),
        (asked(3, 8, 2), bytes([1, 3, 4]) + words(88, 0)),
        (masked(2, 0x00F2, 0x0025), masked(2, 0x00F2, 0x0025)),
        (exchanged(2, 3, 4, words(7, 8)), bytes([1, 23, 6]) + words(0x00C5, 65535, 7)),
        (asked(3, 2, 4), bytes([1, 3, 8]) + words(0x00C5, 65535, 7, 8)),
        (masked(1000, 0x00F2, 0x0025), bytes([1, 0x96, 2])),
        (exchanged(999, 2, 4, words(9)), bytes([1, 0x97, 2])),
        (exchanged(4, 1, 999, words(9, 9)), bytes([1, 0x97, 2])),
        (exchanged(4, 0, 4, words(9)), bytes([1, 0x97, 3])),
        (exchanged(4, 126, 4, words(9)), bytes([1, 0x97, 3])),
        (masked(10, 0, 99, unit=0), b""),
        (exchanged(4, 1, 4, words(9), unit=0), b""),
        (exchanged(4, 7, 11, words(5)), bytes([1, 23, 14]) + words(7, 8, 0, 0, 88, 0, 99)),
        (asked(15, 0, most_coils, coils), asked(15, 0, most_coils)),
        (asked(1, 0, 2000), bytes([1, 1, 250]) + coils + bytes(250 - len(coils))),
        (asked(16, 100, most_registers, registers), asked(16, 100, most_registers)),
        (asked(3, 100, 125), bytes([1, 3, 250]) + registers + bytes(250 - len(registers))),
        (exchanged(100, 125, 104, exchange_most), bytes([1, 23, 250]) + registers[:8] + exchange_most),
    )


# functions 7, 17 and 43/14 as their clients send them, shorter than any request that is served
SHORT = tuple((body, bytes([1, body[1] + 128, 1])) for body in (bytes([1, 7]), bytes([1, 17]), bytes([1, 43, 14, 1, 0])))


def test_tcp_requests(program):
    with Preset(program) as server, Client(server.port) as client:
        for body, reply in rows(1968, 123) + SHORT:
            exchange(client, tcp, body, reply)


def test_rtu_requests(program):
    with Line() as line, Preset(program, "--rtu", line.path) as server:
        for body, reply in rows(1968, 123):
            exchange(line, rtu, body, reply)
        line.send(rtu(READ)[:-1] + b"\0")
        check(line.is_quiet(), "a wrong CRC is answered")
        soon(lambda: server.log()[-1].endswith("FrameCheck"), "the wrong CRC is not logged")


def test_ascii_requests(program):
    with Line() as line, Preset(program, "--ascii", line.path):
        for body, reply in rows(1968, 123):
            exchange(line, ascii_line, body, reply)


def mixed(text):
    """The first letter in lower case, the second not, and so on."""
    small = [n for n, c in enumerate(text) if 65 <= c <= 70][::2]
    return bytes(c + 32 if n in small else c for n, c in enumerate(text))


def test_lower_case(program):
    """A tester that sends a-f, in all of a line or here and there: with --hex lenient it is served as in capitals, and
    answered in capitals; the log has the frame as it was sent. Otherwise its frames are broken and go unanswered, and
    why is said, once; of other broken frames it is not."""
    word = " sends digits in lower case and gets no reply (--hex lenient would serve it)"
    for spelt in (bytes.lower, mixed):
        with Line() as line, Preset(program, "--ascii", line.path, "--hex", "lenient") as server, \
                Client(server.port) as client:
            for body, reply in rows(1968, 123):
                exchange(line, ascii_line, body, reply, spelt)
            exchange(line, ascii_line, READ, READ_REPLY)
            exchange(client, tcp, READ, READ_REPLY)
            write, reply = asked(16, 12, 2, words(0xABCD, 0xEF01)), asked(16, 12, 2)
            exchange(line, ascii_line, write, reply, spelt)
            same(server.log()[-1], f"ascii {line.path}: {spelt(ascii_line(write)).hex().upper()} Answered, wrote "
                 f"holdings 12 to 13, reply {ascii_line(reply).hex().upper()}", "the log")
        for options in ((), ("--hex", "strict")):
            with Line() as line, Preset(program, "--ascii", line.path, *options) as server:
                exchange(line, ascii_line, READ, b"", spelt)
                text = spelt(ascii_line(READ)).hex().upper()
                same(server.log(), [f"ascii {line.path}: {text} FrameBroken"], "the log")
                exchange(line, ascii_line, READ, b"", spelt)
                exchange(line, ascii_line, READ, READ_REPLY)
                same([said for said in server.output().splitlines() if "lower case" in said],
                     [f"dalonjang: ascii {line.path}{word}"], "what is said")
    with Line() as line, Preset(program, "--ascii", line.path) as server:
        for noise in (b":no frame\r\n", b":0103g\r\n", ascii_line(READ)[:-4] + b"\r\n", b":01a\r\n"):
            line.send(noise + ascii_line(READ))
            same(line.receive(len(ascii_line(READ_REPLY))), ascii_line(READ_REPLY), "the reply after noise")
        check("lower case" not in server.output(), "noise is told as lower case")


def test_one_set_of_tables(program):
    """What one client writes, all others read, at once."""
    with Line() as first, Line() as second, \
            Server(program, "--rtu", first.path, "--ascii", second.path, "--unit", "9", "--broadcast", "7,8") \
            as server, Client(server.port) as client:
        exchange(first, rtu, asked(6, 1, 11, unit=9), asked(6, 1, 11, unit=9))
        exchange(second, ascii_line, asked(6, 2, 22, unit=8), b"")
        exchange(client, tcp, asked(6, 3, 33, unit=7), b"")
        exchange(client, tcp, asked(6, 3, 44, unit=0), b"")
        for end, wrap in ((first, rtu), (second, ascii_line), (client, tcp)):
            exchange(end, wrap, asked(3, 1, 3, unit=9), bytes([9, 3, 6]) + words(11, 22, 33))
