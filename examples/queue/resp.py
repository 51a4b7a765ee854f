"""A client for Redis, with what this example needs: commands and replies of the protocol RESP, version 2."""

import socket


class RedisRefused(Exception):
    """Redis refuses a command."""


class Redis:
    """A connection to a Redis of this machine. An OSError is raised where a reply takes longer than `timeout` seconds, if that is given."""

    def __init__(self, port, timeout=None):
        self.socket = socket.create_connection(("127.0.0.1", port), timeout)
        self.replies = self.socket.makefile("rb")

    def call(self, *words):
        """Sends a command and returns its reply: bytes, a whole number, a list of replies, or None. Raises RedisRefused."""
        parts = [it if isinstance(it, bytes) else str(it).encode() for it in words]
        self.socket.sendall(b"*%d\r\n" % len(parts) + b"".join(b"$%d\r\n%s\r\n" % (len(it), it) for it in parts))
        return self._reply()

    def close(self):
        """Ends the connection."""
        self.replies.close()
        self.socket.close()

    def _reply(self):
        line = self.replies.readline()
        sort, rest = line[:1], line[1:-2]
        if not line.endswith(b"\r\n"):
            raise ConnectionError("Redis has closed the connection")
        if sort == b"-":
            raise RedisRefused(rest.decode())
        if sort == b"+":
            return rest
        count = int(rest)
        if sort == b":" or count < 0:
            return count if sort == b":" else None
        return self._exactly(count) if sort == b"$" else [self._reply() for _ in range(count)]

    def _exactly(self, count):
        found = self.replies.read(count + 2)
        if len(found) < count + 2:
            raise ConnectionError("Redis has closed the connection")
        return found[:-2]


def entries(reply):
    """The entries of a stream, as XRANGE replies them: pairs of an ID and the fields."""
    return [(ident, dict(zip(fields[::2], fields[1::2]))) for ident, fields in reply or []]
