"""host_runs PROGRAM [TEST..]: the server of host/ by plain clients: requests, streams, many clients, serial lines, raw log,
image, log, options, signals. All tests if none is named. STREAMS=number and KILLS=number in the environment for more
random streams (300) and more kills between two starts (14).
Status: 0 all as said, 1 something is wrong (a line says what)."""
import sys

import host_images
import host_lines
import host_raw
import host_requests
import host_starts
import host_streams
import host_voices
from serving import run_tests

PARTS = (host_requests, host_streams, host_lines, host_raw, host_images, host_voices, host_starts)

if __name__ == "__main__":
    sys.exit(run_tests(PARTS, sys.argv[1:2], sys.argv[2:]))
