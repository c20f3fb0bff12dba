"""peer_mbpoll tcp|rtu PORT|DEVICE BASE: mbpoll against the server of bin/peers; it writes cells from BASE on.
Status: 0 all right, 1 something is wrong (a line says what)."""
import subprocess
import sys

from peer_plan import COILS_SET, DISCRETES, INPUTS, LAST, LAST_HOLDING, MOST_WRITTEN, told
from serving import check, same

COIL, DISCRETE, INPUT, HOLDING = "0", "1", "3", "4"


class Mbpoll:
    def __init__(self, transport, where):
        serial = transport == "rtu"
        self.options = ["-m", transport, "-0", "-1", *(["-b", "19200"] if serial else ["-p", where])]
        self.where = where if serial else "127.0.0.1"

    def run(self, unit, table, start, *more):
        """Its status, and all that it says."""
        command = ["mbpoll", *self.options, "-a", str(unit), "-t", table, "-r", str(start), *more]
        done = subprocess.run(command, stdout=subprocess.PIPE, stderr=subprocess.STDOUT, text=True, timeout=30,
                              check=False)
        return done.returncode, done.stdout

    def read(self, table, start, count):
        status, said = self.run(1, table, start, "-c", str(count), "-o", "10", self.where)
        same(status, 0, f"mbpoll's status after reading ({said.strip()[-60:]})")
        rows = [line.split() for line in said.splitlines() if line.startswith("[")]
        same([row[0] for row in rows], [f"[{n}]:" for n in range(start, start + count)], "the cells that mbpoll shows")
        return [int(row[1]) for row in rows]

    def write(self, table, start, values):
        status, said = self.run(1, table, start, "-o", "10", self.where, *map(str, values))
        check(status == 0 and f"Written {len(values)} references." in said, f"mbpoll's write: {said.strip()[-60:]}")

    def refused(self, why, seconds, unit, table, start, *more):
        status, said = self.run(unit, table, start, "-o", seconds, *more)
        check(status == 1 and why in said, f"mbpoll ended with {status} and not for '{why}': {said.strip()[-60:]}")


def functions(peer, base, most):
    same(peer.read(DISCRETE, 0, len(DISCRETES)), DISCRETES, "discretes")
    same(peer.read(INPUT, 0, len(INPUTS)), INPUTS, "inputs")
    same(peer.read(HOLDING, LAST, 1), [LAST_HOLDING], "the last holding")
    peer.write(COIL, base + 3, [1])
    peer.write(COIL, base + 4, COILS_SET)
    same(peer.read(COIL, base + 3, len(COILS_SET) + 1), [1] + COILS_SET, "coils")
    peer.write(HOLDING, base, [4660])
    same(peer.read(HOLDING, base, 1), [4660], "one register")
    values = [n * 517 for n in range(most)]
    peer.write(HOLDING, base + 1, values)
    same(peer.read(HOLDING, base, 125), ([4660] + values + 4 * [0])[:125], "125 registers")


def main(transport, where, base):
    peer = Mbpoll(transport, where)
    most = MOST_WRITTEN[1]
    functions(peer, base, most)
    peer.refused("Illegal data address", "10", 1, HOLDING, LAST, "-c", "2", peer.where)
    peer.refused("Illegal data address", "10", 1, COIL, LAST + 1, peer.where, "1")
    peer.refused("timed out", "0.5", 2, HOLDING, base, peer.where, "5")
    done = f"1 2 3 4 5 6 15 16; 125 registers read, {most} written; exception 2; another unit"
    if transport == "tcp":  # it sends no broadcast over RTU
        peer.refused("timed out", "0.5", 0, HOLDING, base, peer.where, "99")
        same(peer.read(HOLDING, base, 1), [99], "the register written by broadcast")
        done += "; broadcast"
    return done


if __name__ == "__main__":
    told(main, sys.argv[1:])
