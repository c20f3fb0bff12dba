"""ask_runs TOOL SERVER [TEST..]: the bench tool of host/ against the server of host/, against those that reply with
something else, and its command line. All tests if none is named.
Status: 0 all as said, 1 something is wrong (a line says what)."""
import sys

import ask_fakes
import ask_server
import ask_words
from serving import run_tests

PARTS = (ask_server, ask_fakes, ask_words)

if __name__ == "__main__":
    sys.exit(run_tests(PARTS, sys.argv[1:3], sys.argv[3:]))
