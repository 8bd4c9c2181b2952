"""Messages of the protocol on streams: each is an object of JSON behind a head that says how many bytes it has. Not proved."""
import json

# A longer message isn't kept: a text of the most bytes that a program may have takes less, however it is written in JSON.
MOST_BYTES = 64 * 1024 * 1024
PIECE = 65_536


def length_in(stream):
    """How many bytes the next message has; None at the end of the stream. A head that doesn't say it is passed over."""
    length = None
    while line := stream.readline(PIECE):
        name, _, value = line.strip().partition(b":")
        if name.lower() == b"content-length" and value.strip().isdigit() and len(value) < 20:
            length = int(value)
        elif not line.strip() and length is not None:
            return length
    return None


def passed(stream, length):
    """Reads so many bytes away."""
    while length > 0 and (piece := stream.read(min(length, PIECE))):
        length -= len(piece)


def received(stream):
    """The messages that come, until the stream ends: values of JSON; None for what is none."""
    while (length := length_in(stream)) is not None:
        if length > MOST_BYTES:
            passed(stream, length)
            yield None
            continue
        data = stream.read(length)
        if len(data) < length:
            return
        try:
            yield json.loads(data)
        except (ValueError, RecursionError):
            yield None


def written(message):
    data = json.dumps({"jsonrpc": "2.0", **message}, separators=(",", ":")).encode()
    return b"Content-Length: %d\r\n\r\n" % len(data) + data
