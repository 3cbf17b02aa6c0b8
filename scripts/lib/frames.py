"""The frames of a WebSocket (RFC 6455), and how one is asked for."""

TEXT, BINARY, CLOSE = 0x81, 0x82, 0x88
# The example of RFC 6455.
UPGRADE = ("Upgrade: websocket\r\nConnection: Upgrade\r\nSec-WebSocket-Key: dGhlIHNhbXBsZSBub25jZQ==\r\n"
           "Sec-WebSocket-Version: 13")


def frame_start(kind, length, is_masked=True):
    """How a frame begins; a mask is of zeros."""
    bit = 0x80 if is_masked else 0
    if length <= 125:
        start = bytes([kind, bit | length])
    elif length <= 65_535:
        start = bytes([kind, bit | 126]) + length.to_bytes(2, "big")
    else:
        start = bytes([kind, bit | 127]) + length.to_bytes(8, "big")
    return start + bytes(4) if is_masked else start


def frame(data, kind=TEXT):
    """A whole frame of a client."""
    data = data.encode() if isinstance(data, str) else data
    return frame_start(kind, len(data)) + data


def take_frame(buffer):
    """How the next frame of a server begins, and its bytes, which are no longer in the buffer; or nothing where it isn't whole."""
    if len(buffer) < 2:
        return None
    short = buffer[1] & 127
    start = {126: 4, 127: 10}.get(short, 2)
    length = int.from_bytes(buffer[2:start], "big") if start > 2 else short
    if len(buffer) < start + length:
        return None
    kind, data = buffer[0], bytes(buffer[start : start + length])
    del buffer[: start + length]
    return kind, data
