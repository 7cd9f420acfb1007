"""Frames, as docs/formats.md has them."""
import struct
from collections import namedtuple

from words import MOST_TEXT

HEAD = struct.Struct(">2sBBIBBQQ")
DATA, COUNT_ALONE = 1, 2
MOST_COUNT = 2**48 - 1
ASK_FORK, FORK, ASK_BOTTLE, BOTTLE = 1, 2, 3, 4

# What a frame brings: a tag, and where the tag has them a record and a value.
Message = namedtuple("Message", "tag record value", defaults=(None, None))
Frame = namedtuple("Frame", "version run sender to number count message")


def message_bytes(version, message):
    said = struct.pack(">B", message.tag)
    said += b"" if message.record is None else struct.pack(">H", message.record)
    if message.value is None:
        return said
    if isinstance(message.value, str):
        return said + struct.pack(">BB", 2, len(message.value)) + message.value.encode("ascii")
    return said + (struct.pack(">B", 1) if version == 2 else b"") + struct.pack(">q", message.value)


def spell(it):
    """The bytes of a frame."""
    kind = COUNT_ALONE if it.message is None else DATA
    head = HEAD.pack(b"DP", it.version, kind, it.run, it.sender, it.to, it.number, it.count)
    return head + (b"" if it.message is None else message_bytes(it.version, it.message))


def value_in(version, data):
    """The value that these bytes of a bottle's message spell, or None."""
    if version == 1 and len(data) == 8 or version == 2 and len(data) == 9 and data[0] == 1:
        return struct.unpack(">q", data[-8:])[0]
    if version == 2 and len(data) >= 2 and data[0] == 2 and data[1] == len(data) - 2 <= MOST_TEXT:
        text = data[2:].decode("latin-1")
        return text if all(" " <= it <= "~" and it != '"' for it in text) else None
    return None


def message_in(version, data):
    """The message that these bytes spell, or None."""
    tag, length = data[:1], len(data)
    if tag in (b"\1", b"\2"):
        return Message(data[0]) if length == 1 else None
    if length < 3 or tag not in (b"\3", b"\4"):
        return None
    record = struct.unpack(">H", data[1:3])[0]
    if tag == b"\3":
        return Message(ASK_BOTTLE, record) if length == 3 else None
    value = value_in(version, data[3:])
    return None if value is None else Message(BOTTLE, record, value)


def frame_of(data):
    """The frame that bytes spell, or None."""
    if len(data) < HEAD.size:
        return None
    magic, version, kind, run, sender, to, number, count = HEAD.unpack(data[: HEAD.size])
    if magic != b"DP" or version not in (1, 2) or kind not in (DATA, COUNT_ALONE) or count > MOST_COUNT:
        return None
    if not (1 <= number <= MOST_COUNT if kind == DATA else number == 0):
        return None
    rest = data[HEAD.size :]
    message = message_in(version, rest) if kind == DATA else None
    if message is None and (kind == DATA or rest):
        return None
    return Frame(version, run, sender, to, number, count, message)
