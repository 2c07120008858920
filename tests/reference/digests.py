"""Hex digests, and the forms in which bytes are fed to a hash function."""
import hashlib


def hex_text(data):
    """`hex_text`: two digits for each byte, that of its low half first (`hex_pair`, `hex_digit`)."""
    return b"".join(b"%x%x" % (byte % 16, byte // 16) for byte in data)


def digest_text(data):
    """`digest_text`: the digits of what SHA-256 gives for these bytes."""
    return hex_text(hashlib.sha256(data).digest())


def delimiter(name):
    """`delimiter_bytes`: a zero byte, `SCCACHE`, a zero byte, the name, a zero byte."""
    return b"\0SCCACHE\0" + name + b"\0"


def length_bytes(count):
    """`length_bytes`: a length or a count as 8 bytes, the lowest first."""
    return count.to_bytes(8, "little")


def frame(data):
    """`frame`, and `length_prefixed` of an entry: the length, and the bytes."""
    return length_bytes(len(data)) + data


def framed_list(item, items):
    """`framed_list`: the count of the items, and what `item` gives for each."""
    return length_bytes(len(items)) + b"".join(map(item, items))


def framed_option(data):
    """`framed_option`: a byte 0 for nothing, else a byte 1 and the frame."""
    return b"\0" if data is None else b"\1" + frame(data)
