"""Frames and run records as bytes (document 01, "Frames" and "The run file"). Fields of several bytes are little-endian."""
import functools
import struct

POSITION, SILENCE, LIST, CONFESSION = 1, 2, 3, 4    # kinds of frames
START, ROUND, PLANT = 0x10, 0x11, 0x12              # kinds of run records
STRIKE, LISTENERS = 0x13, 0x15                      # and of document 02, A6
START_ONE = 0x14                                    # and A9
FIRST_LISTENER, MOST_LISTENERS = 32, 16


def half(data, at):
    return data[at] | data[at + 1] << 8


def word(data, at):
    return struct.unpack_from('<I', data, at)[0]


def signed(data, at, count):
    """`count` signed fields of four bytes, as a list."""
    return list(struct.unpack_from('<%di' % count, data, at))


def signed_bytes(values):
    return struct.pack('<%di' % len(values), *values)


def record(kind, body):
    return struct.pack('<HH', 4 + len(body), kind) + body


def kind_of(record_bytes):
    return record_bytes[2] | record_bytes[3] << 8


def split(data):
    """The whole records at the front of the bytes, and what is left if a record is cut short or its length is below 4."""
    records, at = [], 0
    while len(data) - at >= 4:
        length = half(data, at)
        if length < 4 or at + length > len(data):
            break
        records.append(data[at:at + length])
        at += length
    return records, data[at:]


def marked(marks, head):
    return marks >> head & 1 == 1


@functools.lru_cache(maxsize=1024)
def heads_in(marks):
    """The heads of a mark word; of one with listeners' marks above it, listeners too."""
    return tuple(head for head in range(marks.bit_length()) if marked(marks, head))


def marks_of(heads):
    return sum(1 << head for head in set(heads) if head < 32)


def listener_marks_of(listeners):
    return sum(1 << listener - FIRST_LISTENER for listener in set(listeners))
