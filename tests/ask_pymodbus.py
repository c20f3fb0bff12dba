"""ask_pymodbus tcp|rtu|ascii ANY|DEVICE: a server by pymodbus (3.0 and later) for the bench tool of host/
(tests/ask_peers.py). Over TCP it says 'ready' with its port first; it serves until it is killed."""
import inspect
import logging
import socket
import sys

import pymodbus
from pymodbus import datastore
from pymodbus.server import StartSerialServer, StartTcpServer

CELLS = 2000  # as in tests/ask_peers.py

logging.disable(logging.CRITICAL)


def framer(name):
    try:
        return getattr(pymodbus.FramerType, name.upper())
    except AttributeError:  # before 3.7
        from pymodbus import transaction  # pylint: disable=import-outside-toplevel
        return getattr(transaction, f"Modbus{name.title()}Framer")


def tables():
    """Cell 0 is number 1 of a block."""
    unit = getattr(datastore, "ModbusDeviceContext", None) or datastore.ModbusSlaveContext
    holdings = (CELLS - 1) * [0] + [4711]
    discretes, inputs = [1, 0, 1, 1] + (CELLS - 4) * [0], [17, 4660] + (CELLS - 2) * [0]
    start = {"di": discretes, "co": CELLS * [0], "hr": holdings, "ir": inputs}
    blocks = {name: datastore.ModbusSequentialDataBlock(1, values) for name, values in start.items()}
    names = inspect.signature(datastore.ModbusServerContext).parameters
    return datastore.ModbusServerContext(**{"devices" if "devices" in names else "slaves": unit(**blocks)}, single=True)


def main(transport, where):
    if transport != "tcp":
        StartSerialServer(context=tables(), framer=framer(transport), port=where, baudrate=19200, timeout=1)
        return
    with socket.create_server(("127.0.0.1", 0)) as free:
        port = free.getsockname()[1]
    print("ready", port, flush=True)
    StartTcpServer(context=tables(), address=("127.0.0.1", port))


if __name__ == "__main__":
    main(*sys.argv[1:])
