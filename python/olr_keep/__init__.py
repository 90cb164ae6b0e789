"""olr-keep as a library: registers that take records and return replies, in this process.

    from olr_keep import Keep

    with Keep() as keep:
        keep.node(1, 6.12683, 49.60852)
        keep.node(2, 6.12838, 49.60399)
        keep.line(10, 1, 2, frc=3, fow=3, length=5610)
        for answer in keep.path("a", [10]):
            print(answer.name, answer.string)
        print(keep.ask("report").lines)

Lengths, distances and offsets are whole decimetres; coordinates are degrees with up to seven decimals. Each record of
docs/LIMITS.md has a call: it returns the reply as a dataclass, or raises `Rejected`. `ask` takes a record as text and returns
its reply, also if that is a fault. `AsyncKeep` has the same calls for asyncio.
"""
from ._async import AsyncBatch, AsyncKeep
from ._keep import Batch, Keep
from ._library import ACCEPTED, NO_MEMORY, REJECTED, library_version
from ._records import Degrees, Shape
from ._replies import Answer, Changes, Explained, Obstacle, Point, Rejected, Reply

__version__ = "2.0.0"

__all__ = [
    "ACCEPTED",
    "NO_MEMORY",
    "REJECTED",
    "Answer",
    "AsyncBatch",
    "AsyncKeep",
    "Batch",
    "Changes",
    "Degrees",
    "Explained",
    "Keep",
    "Obstacle",
    "Point",
    "Rejected",
    "Reply",
    "Shape",
    "__version__",
    "library_version",
]
