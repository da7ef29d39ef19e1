"""Renames symbols of object files, of any processor with 64 bits and its low byte first: what objcopy --redefine-sym does for those
that it knows.

The new names are put behind a copy of the table of names, at the end of the file.
"""
import struct

HEADER = struct.Struct("<16sHHIQQQIHHHHHH")
SECTION = struct.Struct("<IIQQQQIIQQ")
SYMBOL = struct.Struct("<IBBHQQ")
SYMBOLS = 2


def sections_of(data):
    """The sections of an object file, each with where it is told."""
    head = HEADER.unpack_from(data)
    if head[0][:6] != b"\x7fELF\x02\x01":
        raise ValueError("no object file of 64 bits with its low byte first")
    at, size, count = head[6], head[11], head[12]
    return [(at + k * size, list(SECTION.unpack_from(data, at + k * size))) for k in range(count)]


def renamed(data, names):
    """The object file with these symbols renamed: names has the new name of each, as bytes."""
    data, sections = bytearray(data), sections_of(data)
    for _, (_, kind, _, _, offset, size, link, *_) in [it for it in sections if it[1][1] == SYMBOLS]:
        place, told = sections[link]
        table = bytes(data[told[4]:told[4] + told[5]])
        added, new = bytearray(table), {}
        for at in range(offset, offset + size, SYMBOL.size):
            first = SYMBOL.unpack_from(data, at)[0]
            name = table[first:table.index(b"\0", first)]
            if name in names:
                if name not in new:
                    new[name] = len(added)
                    added += names[name] + b"\0"
                struct.pack_into("<I", data, at, new[name])
        told[4], told[5] = len(data), len(added)
        data += added
        SECTION.pack_into(data, place, *told)
    return bytes(data)
