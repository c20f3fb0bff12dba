"""What the clients of bin/peers know of the server's tables, and how they report."""
import sys

from serving import Wrong

CELLS = 20000
LAST = CELLS - 1
DISCRETES = [1, 0, 1, 1]
INPUTS = [17, 4660]
LAST_HOLDING = 4711
COILS_SET = [1, 0, 1]
# coils and registers in one frame, by document 01's bounds; registers read and written in an exchange, by document 02's
MOST_WRITTEN = (1968, 123)
MOST_EXCHANGED = (125, 121)

IMAGE = f"""dalonjang tables
discretes 0 {' '.join(map(str, DISCRETES))}
inputs 0 {' '.join(map(str, INPUTS))}
holdings {LAST} {LAST_HOLDING}
end
"""


def told(main, arguments):
    """Ends the program with one line, of what was done or what is wrong."""
    transport, where, base = arguments
    try:
        print(main(transport, where, int(base)))
    except (Wrong, OSError) as fault:
        print(f"wrong: {fault}")
        sys.exit(1)
