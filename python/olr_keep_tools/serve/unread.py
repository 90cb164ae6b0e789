"""Replies that were written and not read."""
import asyncio
import time
from typing import Dict, Tuple

PATIENCE = 10.0  # seconds in which a connection has to read something of its replies if others wait for them


class Unread:
    """What all connections together have not read. While that is more than the limit, no long reply is begun; connections that read
    nothing are then ended, so that the others have their turn."""

    def __init__(self, most: int, patience: float = PATIENCE) -> None:
        self.most, self.patience = most, patience
        self.seen: Dict[asyncio.WriteTransport, Tuple[int, float]] = {}  # the bytes of each, and when some were last read
        self.is_wanted = False

    def add(self, transport: asyncio.WriteTransport) -> None:
        """A connection begins."""
        self.seen[transport] = (0, time.monotonic())

    def discard(self, transport: asyncio.WriteTransport) -> None:
        """A connection has ended."""
        self.seen.pop(transport, None)

    def size(self) -> int:
        """The bytes of all connections."""
        return sum(it.get_write_buffer_size() for it in self.seen)

    def has_room(self) -> bool:
        """Whether a long reply may begin."""
        has_room = self.size() <= self.most
        self.is_wanted |= not has_room
        return has_room

    def look(self, now: float) -> None:
        """Notes who has read, and ends those who haven't if somebody waits."""
        for transport, (before, since) in list(self.seen.items()):
            size = transport.get_write_buffer_size()
            since = now if size < before or not size else since
            self.seen[transport] = (size, since)
            if self.is_wanted and now - since > self.patience:
                transport.abort()
        self.is_wanted = False
