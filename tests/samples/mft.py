"""Reads the entries of an MFT, by itself and with nothing of the library, so that a test can hold the library to it.

The sector ends of each entry are put back as the NTFS layout says; an entry whose check values do not agree is left out.
"""

import struct

ENTRY = 1024
SECTOR = 512
IN_USE = 1
FILE_NAME = 0x30
END = 0xFFFFFFFF


class Name:
    """A name that an entry's record holds, and the number of the folder that it is in."""

    def __init__(self, parent, across):
        self.parent = parent
        self.across = across


class Entry:
    """What a record says of itself. A record with a base belongs to that entry and is called an extension record."""

    def __init__(self, sequence, flags, base, names):
        self.sequence = sequence
        self.in_use = flags & IN_USE != 0
        self.base = base
        self.names = names


def restored(record):
    """The record with its true sector ends, or None where it is no record or was not written as a whole."""
    if record[:4] != b"FILE" or len(record) != ENTRY:
        return None
    offset, count = struct.unpack_from("<HH", record, 4)
    if count != ENTRY // SECTOR + 1 or offset + 2 * count > SECTOR - 2:
        return None
    numbers = [record[offset + 2 * k : offset + 2 * k + 2] for k in range(count)]
    true = bytearray(record)
    for k in range(1, count):
        end = slice(SECTOR * k - 2, SECTOR * k)
        if record[end] != numbers[0]:
            return None
        true[end] = numbers[k]
    return bytes(true)


def attributes(record):
    """The type, the offset and the bytes of each attribute."""
    (at,) = struct.unpack_from("<H", record, 20)
    while at + 8 <= ENTRY:
        kind, length = struct.unpack_from("<II", record, at)
        if kind == END or length < 8 or at + length > ENTRY:
            return
        yield kind, at, record[at : at + length]
        at += length


def names(record):
    """The names that stand in a record."""
    for kind, at, attribute in attributes(record):
        if kind != FILE_NAME or attribute[8] != 0:
            continue
        (content,) = struct.unpack_from("<H", attribute, 20)
        (parent,) = struct.unpack_from("<Q", attribute, content)
        begin = at + content + 66
        end = begin + 2 * attribute[content + 64]
        # The first sector's end lies in the name. The second's cannot: the end of the attributes stands behind the name.
        yield Name(parent & 0xFFFFFFFFFFFF, begin < SECTOR and end > SECTOR - 2)


def read(mft):
    """The entries of an MFT by their numbers."""
    entries = {}
    for number in range(len(mft) // ENTRY):
        record = restored(mft[number * ENTRY : (number + 1) * ENTRY])
        if record is not None:
            sequence, _, _, flags = struct.unpack_from("<HHHH", record, 16)
            (base,) = struct.unpack_from("<Q", record, 32)
            entries[number] = Entry(sequence, flags, base & 0xFFFFFFFFFFFF if base else None, list(names(record)))
    return entries
