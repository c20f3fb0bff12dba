"""The bench tool's command line."""
import re

from asking import ask, refused
from serving import check, same

WRONG = ("", "read", "write", "listen", "read holdings", "read holdings 0", "read holdings 0 1 2", "read coil 0 1",
         "read holding 0 1", "read holdings -1 1", "read holdings 65536 1", "read holdings 0x10000 1",
         "read holdings 0 65536", "read holdings 0 one", "read holdings 0 1 --unit 2", "write discretes 0 1",
         "write inputs 0 1", "write coils 0",
         "mask", "mask 0 1", "mask 0 1 2 3", "mask 65536 1 2", "mask 0 65536 1", "mask 0 1 -1", "mask holdings 0 1 2",
         "exchange", "exchange 0 1 2", "exchange 65536 1 0 1", "exchange 0 65536 0 1", "exchange 0 1 65536 1",
         "exchange 0 1 0 65536", "exchange 0 1 0 1 one", "exchange holdings 0 1 0 1",
         "write holdings 0 65536", "write holdings 0 1 -1", "write holdings 0 0x", "write coils 70000 1", "--nothing",
         "--unit", "--unit 256 read coils 0 1", "--unit one read coils 0 1", "--tcp", "--tcp :1 read coils 0 1",
         "--tcp [::1 read coils 0 1", "--tcp [::1]502 read coils 0 1", "--tcp 127.0.0.1:0 read coils 0 1",
         "--tcp 127.0.0.1:65536 read coils 0 1", "--tcp 127.0.0.1: read coils 0 1", "--rtu",
         "--baud 12345 read coils 0 1", "--mode 9E1 read coils 0 1", "--mode 8X1 read coils 0 1",
         "--silence 0 read coils 0 1",
         "--transaction 65536 read coils 0 1", "--timeout 0 read coils 0 1", "unit 1 read coils 0 1")

# what the library does not build, though these are numbers
UNASKED = ("read coils 0 0", "read coils 0 2001", "read discretes 0 2001", "read holdings 0 126", "read inputs 0 0",
           "read holdings 65535 2", "write coil 0 2", "write coils 0 1 0 2", "write coils 65535 1 1",
           "write holdings 0 " + 124 * "1 ", "write coils 0 " + 1969 * "1 ", "exchange 0 0 0 1", "exchange 0 126 0 1",
           "exchange 65535 2 0 1", "exchange 0 1 65535 1 1", "exchange 0 1 0 " + 122 * "1 ", "exchange 0 1 0 " + 2001 * "1 ")


def test_words(tool, _):
    """Status 2 and one line for what is no command, status 1 and one line for what cannot be asked."""
    for line in WRONG:
        got, out, errors = ask(tool, *line.split())
        same((got, out, len(errors)), (2, [], 1), f"status, output and lines of '{line}' ({errors})")
    for line in UNASKED:
        refused(tool, "BadRequest (11)", *line.split())


def test_help(tool, _):
    """Every option is listed, and those that are listed are known."""
    status, out, errors = ask(tool, "--help")
    same((status, errors), (0, []), "status and errors of --help")
    listed = re.findall(r"^  (--[a-z0-9]+)", "\n".join(out), re.M)
    check(len(listed) == len(set(listed)) == 14, f"the options are {listed}")
    for option in listed:
        _, _, errors = ask(tool, option)
        check(not any("no such option" in line for line in errors), f"{option} is not known")
    status, out, errors = ask(tool, "--version")
    check(status == 0 and re.fullmatch(r"ask \d+\.\d+\.\d+", out[0]), f"--version says {out}")
