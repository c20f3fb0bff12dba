"""Logs of RTU traffic as document 02, 2026-12, has them: a plain model of what linecount prints, and random logs for it."""


def crc(body):
    register = 0xFFFF
    for byte in body:
        register ^= byte
        for _ in range(8):
            register = register >> 1 ^ (0xA001 if register & 1 else 0)
    return register


STEP = [0] * 256  # the register after one byte, by its low half
for low in range(256):
    STEP[low] = low
    for _ in range(8):
        STEP[low] = STEP[low] >> 1 ^ (0xA001 if STEP[low] & 1 else 0)


def first(record, start):
    """The first start and length where a frame stands, or None."""
    while start + 4 <= len(record):
        register = 0xFFFF
        for end in range(start, min(start + 254, len(record) - 2)):
            register = STEP[(register ^ record[end]) & 255] ^ register >> 8
            if end >= start + 1 and record[end + 1] == register & 255 and record[end + 2] == register >> 8:
                return start, end + 3 - start
        start += 1
    return None


def frames(record):
    """The lengths of the frames in a record's bytes."""
    found, at = [], 0
    while (one := first(record, at)) is not None:
        found.append(one[1])
        at = sum(one)
    return found


def report(log):
    """What linecount prints."""
    at, records, count, inside, other = 0, 0, 0, 0, 0
    while at < len(log):
        left = log[at:at + 4100]
        if any(byte != mark for byte, mark in zip(left, b"MB")):
            return f"bad mark at {at}\n"
        length = int.from_bytes(left[2:4], "big")
        if len(left) < 4 or length > 4096 or len(left) < 4 + length:
            return f"bad record at {at}\n"
        if at + 4 + length > 0xFFFFFFFF:
            return "too long\n"
        found = frames(left[4:4 + length])
        at, records, count = at + 4 + length, records + 1, count + len(found)
        inside, other = inside + sum(found), other + length - sum(found)
    return f"records {records}\nframes {count}\nframe bytes {inside}\nother bytes {other}\n"


def frame(chance, length):
    body = chance.randbytes(length - 2)
    return body + crc(body).to_bytes(2, "little")


def recorded(record):
    return b"MB" + len(record).to_bytes(2, "big") + record


LENGTHS = (4, 5, 6, 8, 8, 8, 13, 40, 255, 256, 257)
SIZES = (0, 1, 2, 3, 4, 5, 7, 20, 100, 256, 300, 600)


def good(chance, size):
    """Frames back to back; the last may be cut."""
    made = b""
    while len(made) < size:
        made += frame(chance, chance.choice(LENGTHS))
    return made[:size]


def damaged(chance, size):
    made = bytearray(good(chance, size))
    for _ in range(len(made) // 100 + 1):
        if made:
            made[chance.randrange(len(made))] ^= 1 << chance.randrange(8)
    return bytes(made)


def noisy(chance, size):
    """Frames with noise or zeros between them, and noise or zeros alone."""
    kind = chance.randrange(4)
    if kind < 2:
        return chance.randbytes(size) if kind == 0 else bytes(size)
    made = b""
    while len(made) < size:
        made += chance.choice((frame(chance, chance.choice(LENGTHS)), chance.randbytes(3), bytes(chance.randrange(9)), b"\xff\xff\0"))
    return made[:size]


def whole(chance, kind, most=20):
    """Some records; now and then one is as long as one may be."""
    return b"".join(recorded(kind(chance, chance.choice(SIZES))) for _ in range(chance.choice((0, 1, 1, 2, 5, most)))) + (
        recorded(kind(chance, chance.choice((4095, 4096)))) if chance.randrange(8) == 0 else b"")


def cut(chance, log):
    return log[:chance.randrange(len(log) + 1)]


FAULTS = (b"M", b"N", b"MC", b"MB", b"MB\0", b"\0", b"MBx", b"MB\x10\x01" + bytes(4097), b"MB\x10\0" + bytes(4095),
          b"MB\xff\xff", b"MB\0\1", b"B", b"\x4d\x43\0\0")


def refused(chance, log):
    """A fault behind it, or a byte of it changed."""
    if chance.randrange(2) or not log:
        return log + chance.choice(FAULTS) + whole(chance, good, 2)
    at = chance.randrange(len(log))
    return log[:at] + chance.randbytes(1) + log[at + 1:]


KINDS = {"good": lambda chance: whole(chance, good), "damaged": lambda chance: whole(chance, damaged),
         "noisy": lambda chance: whole(chance, noisy, 8), "cut": lambda chance: cut(chance, whole(chance, good)),
         "refused": lambda chance: refused(chance, whole(chance, good))}
