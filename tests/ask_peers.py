"""ask_peers TOOL RUN..: the bench tool of host/ and real Modbus servers. A run is pymodbus:tcp, pymodbus:rtu,
pymodbus:ascii, libmodbus:tcp or libmodbus:rtu. A line for each says what was done.
Status: 0 all right, 1 something is wrong (a line says what)."""
import contextlib
import subprocess
import sys

from asking import Joined, answered, ask, refused, shown
from serving import Wrong, check, soon

COMMAND = {"pymodbus": ["/usr/bin/python3", "tests/ask_pymodbus.py"], "libmodbus": ["out/ask_libmodbus"]}
CELLS = 2000


@contextlib.contextmanager
def serving(tool, name, transport):
    """Somebody else's server, and how the tool reaches it, once it answers."""
    with contextlib.ExitStack() as stack:
        wire = None if transport == "tcp" else stack.enter_context(Joined())
        process = subprocess.Popen([*COMMAND[name], transport, wire.server if wire else "any"],
                                   stdout=subprocess.PIPE, stderr=subprocess.DEVNULL, text=True)
        try:
            port = None if wire else process.stdout.readline().split()[1]
            where = [f"--{transport}", wire.tool] if wire else ["--tcp", f"127.0.0.1:{port}"]
            soon(lambda: ask(tool, *where, "read", "holdings", 0, 1, timeout=500)[0] == 0 or died(process),
                 f"{name} does not answer over {transport}")
            yield where
        finally:
            process.kill()
            process.wait()
            process.stdout.close()



def died(process):
    check(process.poll() is None, f"the server ended with {process.returncode}")
    return False


def functions(tool, where):
    answered(tool, shown("discretes", 0, [1, 0, 1, 1]), *where, "read", "discretes", 0, 4)
    answered(tool, shown("inputs", 0, [17, 4660]), *where, "read", "inputs", 0, 2)
    answered(tool, [f"holdings {CELLS - 1} 4711"], *where, "read", "holdings", CELLS - 1, 1)
    answered(tool, ["written: 1 coils from 3 on"], *where, "write", "coil", 3, 1)
    answered(tool, ["written: 3 coils from 4 on"], *where, "write", "coils", 4, 1, 0, 1)
    answered(tool, shown("coils", 2, [0, 1, 1, 0, 1, 0]), *where, "read", "coils", 2, 6)
    answered(tool, ["written: 1 holdings from 0 on"], *where, "write", "holding", 0, 0xCAFE)
    answered(tool, ["written: 2 holdings from 1 on"], *where, "write", "holdings", 1, 1, 65535)
    answered(tool, shown("holdings", 0, [0xCAFE, 1, 65535, 0]), *where, "read", "holdings", 0, 4)
    bits, registers = [n % 3 % 2 for n in range(1968)], [n * 509 for n in range(123)]
    answered(tool, ["written: 1968 coils from 8 on"], *where, "write", "coils", 8, *bits)
    answered(tool, shown("coils", 8, bits + 24 * [0]), *where, "read", "coils", 8, 1992)
    answered(tool, ["written: 123 holdings from 100 on"], *where, "write", "holdings", 100, *registers)
    answered(tool, shown("holdings", 100, registers + [0, 0]), *where, "read", "holdings", 100, 125)
    answered(tool, ["written: 1 holdings from 300 on"], *where, "write", "holding", 300, "0x12")
    answered(tool, ["masked: holding 300 by 0x00F2 and 0x0025"], *where, "mask", 300, "0xF2", "0x25")
    answered(tool, ["written: 2 holdings from 301 on", *shown("holdings", 300, [0x17, 7])],
             *where, "exchange", 300, 2, 301, 7, 8)
    answered(tool, ["written: 121 holdings from 303 on", *shown("holdings", 299, [0, 0x17, 7, 8] + registers[:121])],
             *where, "exchange", 299, 125, 303, *registers[:121])
    refused(tool, "exception 2, illegal data address", *where, "mask", CELLS, 0, 1)
    refused(tool, "exception 2, illegal data address", *where, "exchange", CELLS - 1, 2, 300, 9)
    refused(tool, "exception 2, illegal data address", *where, "read", "holdings", CELLS - 1, 2)
    refused(tool, "exception 2, illegal data address", *where, "write", "coil", CELLS, 1)


def main():
    tool, *runs = sys.argv[1:]
    for run in runs:
        name, _, transport = run.partition(":")
        try:
            with serving(tool, name, transport) as where:
                functions(tool, where)
        except (Wrong, OSError, subprocess.TimeoutExpired) as fault:
            print(f"wrong: {run}: {fault}")
            return 1
        print(f"ask and {name} over {transport.upper()}: functions 1 2 3 4 5 6 15 16 22 23; 1992 coils and 125 registers "
              "read, 1968 and 123 written, 125 and 121 exchanged; exception 2", flush=True)
    return 0


if __name__ == "__main__":
    sys.exit(main())
