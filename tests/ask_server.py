"""The bench tool and the server of host/, on all transports."""
import contextlib

from asking import Joined, answered, ask, refused, shown
from preset import Preset
from serving import check, exchanged, masked, same, tcp, asked, words


@contextlib.contextmanager
def served(server, transport):
    """A server on tables with known values, and how the tool reaches it."""
    with contextlib.ExitStack() as stack:
        if transport == "tcp":
            serving = stack.enter_context(Preset(server))
            yield serving, ["--tcp", f"127.0.0.1:{serving.port}"]
            return
        wire = stack.enter_context(Joined())
        serving = stack.enter_context(Preset(server, f"--{transport}", wire.server, "--silence", "100"))
        yield serving, [f"--{transport}", wire.tool]


def all_functions(tool, server, transport):
    with served(server, transport) as (serving, where):
        answered(tool, shown("holdings", 0, [258, 772, 0, 65535]), *where, "read", "holdings", 0, 4)
        answered(tool, shown("discretes", 997, [1, 0, 1]), *where, "read", "discretes", 997, 3)
        answered(tool, shown("inputs", 0, [17, 4660]), *where, "read", "inputs", 0, 2)
        answered(tool, shown("coils", 7, [0, 1, 1, 0]), *where, "read", "coils", 7, 4)
        answered(tool, ["written: 1 coils from 3 on"], *where, "write", "coil", 3, 1)
        answered(tool, ["written: 3 coils from 4 on"], *where, "write", "coils", 4, 1, 0, 1)
        answered(tool, shown("coils", 2, [0, 1, 1, 0, 1, 0]), *where, "read", "coils", 2, 6)
        answered(tool, ["written: 1 holdings from 1 on"], *where, "write", "holding", 1, "0xBEEF")
        answered(tool, ["written: 2 holdings from 2 on"], *where, "write", "holdings", 2, 1, 65535)
        answered(tool, shown("holdings", 0, [258, 0xBEEF, 1, 65535]), *where, "read", "holdings", 0, 4)
        answered(tool, ["written: 1 coils from 3 on"], *where, "--many", "write", "coil", 3, 0)
        answered(tool, ["written: 1 holdings from 1 on"], *where, "--many", "write", "holding", 1, 9)
        answered(tool, ["coils 3 0"], *where, "read", "coils", 3, 1)
        answered(tool, ["holdings 1 9"], *where, "read", "holdings", 1, 1)
        answered(tool, ["masked: holding 2 by 0x00F2 and 0x0025"], *where, "mask", 2, "0x00F2", 37)
        answered(tool, ["written: 2 holdings from 3 on", *shown("holdings", 1, [9, 5, 770, 771])],
                 *where, "exchange", 1, 4, 3, 770, 771)
        refused(tool, "exception 2, illegal data address", *where, "read", "holdings", 999, 2)
        refused(tool, "exception 2, illegal data address", *where, "write", "coil", 2000, 1)
        refused(tool, "exception 2, illegal data address", *where, "mask", 1000, 1, 2)
        refused(tool, "exception 2, illegal data address", *where, "exchange", 999, 2, 0, 7)
        refused(tool, "exception 2, illegal data address", *where, "exchange", 0, 1, 1000, 7)
        answered(tool, shown("holdings", 0, [258, 9, 5, 770]), *where, "read", "holdings", 0, 4)
        return serving.log()


def test_tcp(tool, server):
    """One value goes by functions 5 and 6, several by 15 and 16, one too with --many."""
    log = all_functions(tool, server, "tcp")
    sent = [line.split()[2] for line in log if "Answered" in line or "Exception" in line]
    same([int(frame[14:16], 16) for frame in sent],
         [3, 2, 4, 1, 5, 15, 1, 6, 16, 3, 15, 16, 1, 3, 22, 23, 3, 5, 22, 23, 23, 3], "the functions")
    same(sent[5], tcp(asked(15, 4, 3, b"\5"), 1).hex().upper(), "the frame that writes three coils")
    same(sent[8], tcp(asked(16, 2, 2, words(1, 65535)), 1).hex().upper(), "the frame that writes two registers")
    same(sent[14], tcp(masked(2, 0xF2, 0x25), 1).hex().upper(), "the frame that masks")
    same(sent[15], tcp(exchanged(1, 4, 3, words(770, 771)), 1).hex().upper(), "the frame that exchanges")


def test_rtu(tool, server):
    all_functions(tool, server, "rtu")


def test_ascii(tool, server):
    all_functions(tool, server, "ascii")


def test_longest(tool, server):
    """The most that one frame can ask, over every transport."""
    for transport in ("tcp", "rtu", "ascii"):
        with served(server, transport) as (_, where):
            bits, registers = [n % 3 % 2 for n in range(1968)], [n * 509 for n in range(123)]
            answered(tool, ["written: 1968 coils from 32 on"], *where, "write", "coils", 32, *bits)
            answered(tool, shown("coils", 0, 8 * [0] + 2 * [1] + 22 * [0] + bits), *where, "read", "coils", 0, 2000)
            answered(tool, ["written: 123 holdings from 500 on"], *where, "write", "holdings", 500, *registers)
            answered(tool, shown("holdings", 500, registers + [0, 0]), *where, "read", "holdings", 500, 125)
            answered(tool, ["written: 121 holdings from 504 on", *shown("holdings", 500, registers[:4] + registers[:121])],
                     *where, "exchange", 500, 125, 504, *registers[:121])


def test_units(tool, server):
    """Another unit does not answer; a broadcast is done and said to be one, and its read comes to nothing."""
    for transport in ("tcp", "rtu", "ascii"):
        with served(server, transport) as (serving, where):
            refused(tool, "no reply within 300 milliseconds: timeout", *where, "--unit", 2, "read", "holdings", 0, 1,
                    timeout=300)
            same(ask(tool, *where, "--unit", 0, "write", "holding", 5, 77),
                 (0, ["sent to unit 0: a broadcast, to which no reply is expected"], []), "after a broadcast")
            same(ask(tool, *where, "--unit", 0, "mask", 6, 0, 78),
                 (0, ["sent to unit 0: a broadcast, to which no reply is expected"], []), "after a mask as a broadcast")
            refused(tool, "timeout", *where, "--unit", 0, "read", "holdings", 0, 1, timeout=300)
            refused(tool, "timeout", *where, "--unit", 0, "exchange", 0, 1, 5, 79, timeout=300)
            answered(tool, ["holdings 5 77", "holdings 6 78"], *where, "read", "holdings", 5, 2)
            check(any("BroadcastDone" in line for line in serving.log()), "the broadcast was not served")


def test_names(tool, server):
    """A name, and an IPv6 address in brackets or, without a port, alone."""
    with Preset(server, "--address", "localhost") as serving:
        answered(tool, ["holdings 0 258"], "--tcp", f"localhost:{serving.port}", "read", "holdings", 0, 1)
        if any("[::1]" in line for line in serving.output().splitlines()):
            answered(tool, ["holdings 0 258"], "--tcp", f"[::1]:{serving.port}", "read", "holdings", 0, 1)
        port = serving.port
    refused(tool, f"127.0.0.1 port {port} cannot be reached", "--tcp", f"127.0.0.1:{port}", "read", "holdings", 0, 1)
    refused(tool, "no.such.name.invalid: ", "--tcp", "no.such.name.invalid:1", "read", "holdings", 0, 1)
    refused(tool, "the serial line /dev/no-such-line cannot be used", "--rtu", "/dev/no-such-line", "read", "coils", 0, 1)
    refused(tool, "the serial line /dev/null cannot be used", "--ascii", "/dev/null", "read", "coils", 0, 1)
