"""peer_pymodbus tcp|rtu|ascii PORT|DEVICE BASE: pymodbus (3.0 and later) against the server of bin/peers; it writes
cells from BASE on.
Status: 0 all right, 1 something is wrong (a line says what)."""
import inspect
import logging
import sys

import pymodbus
from pymodbus.client import ModbusSerialClient, ModbusTcpClient
from pymodbus.exceptions import ModbusException

from peer_plan import COILS_SET, DISCRETES, INPUTS, LAST, LAST_HOLDING, MOST_EXCHANGED, MOST_WRITTEN, told
from serving import check, same

try:
    from pymodbus.pdu.file_message import FileRecord, ReadFileRecordRequest
except ImportError:  # before 3.7
    from pymodbus.file_message import FileRecord, ReadFileRecordRequest
    from pymodbus.mei_message import ReadDeviceInformationRequest
    from pymodbus.other_message import ReadExceptionStatusRequest, ReportSlaveIdRequest

logging.disable(logging.CRITICAL)  # it logs what is meant to be silent


def ascii_framer():
    try:
        return pymodbus.FramerType.ASCII
    except AttributeError:  # before 3.7
        from pymodbus.transaction import ModbusAsciiFramer  # pylint: disable=import-outside-toplevel
        return ModbusAsciiFramer


def connected(transport, where, timeout):
    if transport == "tcp":
        client = ModbusTcpClient("127.0.0.1", port=int(where), timeout=timeout, retries=0)
    else:
        framer = {"framer": ascii_framer()} if transport == "ascii" else {}
        client = ModbusSerialClient(where, baudrate=19200, timeout=timeout, retries=0, **framer)
    check(client.connect(), "pymodbus cannot connect")
    return client


class Peer:
    def __init__(self, transport, where):
        self.how = transport, where
        self.client = connected(transport, where, 10)

    def names(self, name):
        return inspect.signature(getattr(self.client, name)).parameters

    def call(self, name, *arguments, unit=1, **named):
        """A call that names no unit hands its words on to the request, which calls it 'unit' (so in 3.0)."""
        word = next((word for word in ("device_id", "slave") if word in self.names(name)), "unit")
        return getattr(self.client, name)(*arguments, **named, **{word: unit})

    def done(self, name, *arguments, **named):
        answer = self.call(name, *arguments, **named)
        check(not answer.isError(), f"{name} {arguments[:1] or named}: {answer}")
        return answer

    def bits(self, name, start, count):
        return [int(bit) for bit in self.done(name, start, count=count).bits[:count]]

    def registers(self, name, start, count):
        return self.done(name, start, count=count).registers

    def exchange(self, start, count, first, values):
        """The words of function 23."""
        given = "values" if "values" in self.names("readwrite_registers") else "write_registers"
        return {"read_address": start, "read_count": count, "write_address": first, given: values}

    def refused(self, code, name, *arguments, **named):
        """Answers whether it could be sent at all: newer pymodbus keeps to the limits itself."""
        try:
            answer = self.call(name, *arguments, **named)
        except ValueError:
            return False
        same(getattr(answer, "exception_code", None), code, f"the exception after {name} {arguments} ({answer})")
        return True

    def unserved(self):
        """Functions 7, 17, 20 and 43/14, which the server does not have."""
        record = FileRecord(file_number=4, record_number=1, record_length=2)
        for function, names, arguments, request in (
                (7, ("read_exception_status",), (), lambda: ReadExceptionStatusRequest(unit=1)),
                (17, ("report_slave_id", "report_device_id"), (), lambda: ReportSlaveIdRequest(unit=1)),
                (20, ("read_file_record",), ([record],), lambda: ReadFileRecordRequest([record], unit=1)),
                (43, ("read_device_information",), (1, 0), lambda: ReadDeviceInformationRequest(1, 0, unit=1))):
            name = next((name for name in names if hasattr(self.client, name)), None)
            answer = self.call(name, *arguments) if name else self.client.execute(request())
            same(getattr(answer, "exception_code", None), 1, f"the exception after function {function} ({answer})")

    def unanswered(self, name, *arguments, unit):
        """A short wait, and then all anew: what pymodbus does after a lost reply is its own affair."""
        self.client.close()
        self.client = connected(*self.how, 1)  # in whole seconds
        try:
            answer = self.call(name, *arguments, unit=unit)
        except ModbusException as fault:
            answer = fault
        check(isinstance(answer, ModbusException), f"unit {unit} answered: {answer}")
        self.client.close()
        self.client = connected(*self.how, 10)


def functions(peer, base, most_coils, most_registers):
    same(peer.bits("read_discrete_inputs", 0, len(DISCRETES)), DISCRETES, "discretes")
    same(peer.registers("read_input_registers", 0, len(INPUTS)), INPUTS, "inputs")
    same(peer.registers("read_holding_registers", LAST, 1), [LAST_HOLDING], "the last holding")
    peer.done("write_coil", base + 3, True)
    peer.done("write_coils", base + 4, [bool(bit) for bit in COILS_SET])
    same(peer.bits("read_coils", base + 2, len(COILS_SET) + 3), [0, 1] + COILS_SET + [0], "coils")
    peer.done("write_register", base, 0xCAFE)
    peer.done("write_registers", base + 1, [1, 65535])
    same(peer.registers("read_holding_registers", base, 4), [0xCAFE, 1, 65535, 0], "registers")
    bits = [n % 3 == 0 for n in range(most_coils)]
    peer.done("write_coils", base, bits)
    same(peer.bits("read_coils", base, 2000), [int(bit) for bit in bits] + (2000 - most_coils) * [0], "2000 coils")
    values = [n * 259 % 65536 for n in range(most_registers)]
    peer.done("write_registers", base, values)
    same(peer.registers("read_holding_registers", base, 125), values + (125 - most_registers) * [0], "125 registers")


def masks_and_exchanges(peer, base):
    """Functions 22 and 23: a mask, an exchange whose read begins before its write and ends in it, and the largest."""
    peer.done("write_register", base + 300, 0x12)
    peer.done("mask_write_register", address=base + 300, and_mask=0xF2, or_mask=0x25)
    read = peer.done("readwrite_registers", **peer.exchange(base + 300, 2, base + 301, [7, 8])).registers
    same(read, [0x17, 7], "the mask and the exchange")
    same(peer.registers("read_holding_registers", base + 300, 4), [0x17, 7, 8, 0], "registers after the exchange")
    most, values = MOST_EXCHANGED[0], [n * 263 for n in range(MOST_EXCHANGED[1])]
    read = peer.done("readwrite_registers", **peer.exchange(base + 299, most, base + 303, values)).registers
    same(read, [0, 0x17, 7, 8] + values, "the largest exchange")
    check(peer.refused(2, "mask_write_register", address=LAST + 1, and_mask=0, or_mask=1), "pymodbus does not mask")
    for outside in ((LAST, 2, base + 300, [9]), (base + 300, 1, LAST, [9, 9])):
        check(peer.refused(2, "readwrite_registers", **peer.exchange(*outside)), "pymodbus does not exchange")
    same(peer.registers("read_holding_registers", base + 300, 1), [0x17], "a register after an exchange that is refused")
    same(peer.registers("read_holding_registers", LAST, 1), [LAST_HOLDING], "the last holding after it")


def main(transport, where, base):
    peer = Peer(transport, where)
    most = MOST_WRITTEN
    functions(peer, base, *most)
    masks_and_exchanges(peer, base)
    peer.unserved()
    check(peer.refused(2, "read_holding_registers", LAST, count=2), "pymodbus does not ask for two cells")
    check(peer.refused(2, "write_coil", LAST + 1, True), "pymodbus does not write a coil")
    codes = "1 2 3" if peer.refused(3, "read_input_registers", 0, count=126) else "1 2"
    peer.unanswered("write_register", base + 200, 7, unit=2)
    peer.unanswered("write_register", base + 201, 77, unit=0)
    same(peer.registers("read_holding_registers", base + 200, 2), [0, 77], "after another unit's write and a broadcast")
    return f"1 2 3 4 5 6 15 16 22 23; 2000 coils and 125 registers read, {most[0]} and {most[1]} written, " \
           f"{MOST_EXCHANGED[0]} and {MOST_EXCHANGED[1]} exchanged; exceptions {codes}; another unit; broadcast"


if __name__ == "__main__":
    told(main, sys.argv[1:])
