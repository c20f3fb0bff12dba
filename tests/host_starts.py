"""How the server starts and ends: first lines, options, signals."""
import re
import signal
import socket

from preset import Preset, READ
from serving import Client, Server, Wrong, asked, check, run, same, values_of


def test_first_lines(program):
    with Server(program, "--unit", "17", "--broadcast", "none", "--cells", "5", "--inputs", "0") as server:
        same(server.output().splitlines(), [
            f"dalonjang: Modbus TCP on 127.0.0.1:{server.port}",
            "unit 17, broadcast none; cells: 5 coils, 5 discretes, 5 holdings, 0 inputs",
            f"try: mbpoll -m tcp -p {server.port} -a 17 -t 4 -r 1 -c 4 -1 127.0.0.1",
            "Control-C ends it."], "the first lines")


def test_address(program):
    """It listens where it is told and nowhere else."""
    with Server(program, "--address", "127.0.0.2") as server:
        with Client(server.port, address="127.0.0.2") as client:
            same(values_of(client.ask(asked(3, 0, 1))), [0], "the register read at the address")
        try:
            Client(server.port).close()
        except ConnectionRefusedError:
            return
        raise Wrong("another address is served as well")


def has_ipv6():
    try:
        with socket.create_server(("::1", 0), family=socket.AF_INET6):
            return True
    except OSError:
        return False


def test_names(program):
    """A name and IPv6 as well; who can be reached from outside is told so."""
    note = "note: whoever reaches this machine can read and write; Modbus has no passwords"
    with Server(program, "--address", "localhost") as server:
        reached = {found[4][0] for found in socket.getaddrinfo("localhost", None, type=socket.SOCK_STREAM)}
        listening = [line.split()[-1] for line in server.output().splitlines() if "Modbus TCP on" in line]
        check(listening and all(line.endswith(f":{server.port}") for line in listening), f"it listens on {listening}")
        check({line.rpartition(":")[0].strip("[]") for line in listening} <= reached, f"it listens on {listening}")
        with Client(server.port) as client:
            same(values_of(client.ask(asked(3, 0, 1))), [0], "the register read at a name")
        check(note not in server.output(), "a note though only this machine reaches it")
    with Server(program, "--address", "0.0.0.0") as server, Client(server.port) as client:
        same(values_of(client.ask(asked(3, 0, 1))), [0], "the register read where all addresses are served")
        check(note in server.output().splitlines(), "no note that all can reach it")
    if not has_ipv6():
        status, text, said = run(program, "--port", "0", "--address", "::1")
        same((status, text, len(said)), (1, "", 1), "status, output and lines without IPv6")
        return
    with Server(program, "--address", "::1") as server, Client(server.port, address="::1") as client:
        same(server.output().splitlines()[0], f"dalonjang: Modbus TCP on [::1]:{server.port}", "the first line")
        same(values_of(client.ask(asked(3, 0, 1))), [0], "the register read over IPv6")
        same(server.log()[0], f"tcp [::1]:{client.socket.getsockname()[1]}: came", "the client's name")
    with Server(program, "--address", "::") as server, Client(server.port) as client:
        same(values_of(client.ask(asked(3, 0, 1))), [0], "the register read over IPv4, where all of both are served")
        check(note in server.output().splitlines(), "no note that all can reach it")


def test_signals(program):
    for by in (signal.SIGINT, signal.SIGTERM):
        with Preset(program) as server, Client(server.port) as client:
            client.ask(READ)
            client.ask(asked(3, 0, 0))
            same(server.end(by), 0, f"the status after {by.name}")
            same(server.output().splitlines()[-1], "ended; frames served: 1 Answered, 1 Exception", "the last line")


def test_options(program):
    status, text, said = run(program, "--help")
    same((status, said, text.count("\n") > 20), (0, [], True), "--help")
    wrong = (("--nothing",), ("port",), ("-p",), ("--port",), ("--port", "65536"), ("--port", "-1"), ("--port", "x"),
             ("--port", ""), ("--unit", "256"), ("--broadcast", "0,256"), ("--broadcast", ",0"), ("--broadcast", ""),
             ("--cells", "65537"), ("--coils", "1.5"), ("--address", ""), ("--baud", "9601"), ("--mode", "9N1"),
             ("--silence", "0"), ("--clients", "0"), ("--clients", "257"), ("--patience", "0"), ("--no-tcp",),
             ("--log", ""), ("--image", ""), ("--idle", "60s"), 9 * ("--rtu", "/dev/null"), ("--import", ""),
             ("--hex",), ("--hex", ""), ("--hex", "2"), ("--hex", "Lenient"), ("--hex", "lenient,strict"),
             ("--unit", "0"), ("--unit", "7", "--broadcast", "6,7"), ("--broadcast", "1"))
    for options in wrong:
        status, text, said = run(program, *options)
        same((status, text, len(said)), (2, "", 1), f"status, output and lines after {' '.join(options)}")
    for options in wrong[-3:]:
        check("never answered" in run(program, *options)[2][0], f"what is said after {' '.join(options)}")
    with open("include/dalonjang.h", encoding="utf-8") as header:
        version = re.search(r'#define DALONJANG_VERSION "([0-9.]+)"', header.read())[1]
    same(run(program, "--version"), (0, f"dalonjang-server {version}\n", []), "--version")


def test_what_cannot_start(program):
    with Server(program) as server:
        for options, words_said in ((("--port", str(server.port)), "cannot listen on"),
                                    (("--port", "0", "--rtu", "/dev/null"), "cannot be used"),
                                    (("--port", "0", "--ascii", "/nowhere/tty"), "cannot be used"),
                                    (("--port", "0", "--log", "/nowhere/log"), "cannot be written"),
                                    (("--port", "0", "--address", 300 * "x"), "cannot listen on"),
                                    (("--port", "0", "--image", "/dev/null/image"), "the image")):
            status, text, said = run(program, *options)
            same((status, text, len(said)), (1, "", 1), f"status, output and lines after {' '.join(options)}")
            check(words_said in said[0], f"what is said after {' '.join(options)}: {said[0]}")
    status, text, said = run(program, "--port", "0", descriptors=40)
    same((status, text, len(said)), (1, "", 1), "status, output and lines where too few files can be open")
    check("32 needs 56 open files" in said[0], f"what is said where too few files can be open: {said[0]}")
