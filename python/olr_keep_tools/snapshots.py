"""Snapshots of a share: a dump of its program, and beside it, in a file whose name ends in .json, the offset of the last
message of commands that it holds, the identity of their stream, the share, the shares of all names if they are by place, and the
number and the digest of its records.
"""
import hashlib
import json
import os
from typing import IO, Callable, Dict, List, Mapping, NamedTuple, Optional
from urllib.parse import quote

from .carried import Share
from .command import STREAM, Failure
from .files import replaced
from .program import Program
from .records import blocks
from .shares import Shares
from .stream import LOST_STREAMS

RETAINED = 2


class Snapshot(NamedTuple):
    """A file of records, the offset up to which it has the messages, the identity of their stream, the shares of names, and the number
    of its records and their digest, if they are known: those of 2.0.0 aren't."""

    file: str
    offset: int
    identity: Optional[str] = None
    names: Mapping[str, int] = {}
    records: Optional[int] = None
    digest: Optional[str] = None


class Written:
    """A file that is written, with the number of its lines and their digest."""

    def __init__(self, file: IO[bytes]):
        self.file, self.records, self.digest = file, 0, hashlib.sha256()

    def write(self, text: bytes) -> int:
        """Writes to it."""
        self.records += text.count(b"\n")
        self.digest.update(text)
        return self.file.write(text)


class Snapshots:
    """The snapshots of a share in a folder."""

    def __init__(self, folder: str, stream: str, share: int, shares: Shares):
        self.folder = folder
        self.of: Mapping[str, object] = {"stream": stream, "share": share, "shares": shares.label}
        self.prefix = f"{quote(stream, '')}.{share}.{shares.label}."

    def offsets(self) -> List[int]:
        """The offsets of the complete snapshots, in ascending order."""
        try:
            names = [it for it in os.listdir(self.folder) if it.startswith(self.prefix) and it.endswith(".json")]
        except OSError as error:
            raise Failure(STREAM, f"{self.folder}: {error.strerror}") from None
        return sorted(int(it) for it in (name[len(self.prefix) : -5] for name in names) if it.isdecimal())

    def newest(self) -> Optional[Snapshot]:
        """The newest snapshot, or None."""
        offsets = self.offsets()
        return described(self.file(offsets[-1]), self.of) if offsets else None

    def file(self, offset: int) -> str:
        """The name of the file of records."""
        return os.path.join(self.folder, f"{self.prefix}{offset}.csv")

    def write(self, program: Program, offset: int, identity: Optional[str], names: Mapping[str, int]) -> None:
        """Writes a snapshot, and removes all but the newest ones. Raises OSError; a part is removed then."""
        file = self.file(offset)
        about: Dict[str, object] = {**self.of, "offset": offset, "identity": identity, "names": dict(names)}

        def dump(it: IO[bytes]) -> None:
            written = Written(it)
            program.write_dump(written)
            about.update(records=written.records, digest=written.digest.hexdigest())

        self.put(file, dump)
        self.put(f"{file[:-4]}.json", lambda it: it.writelines([json.dumps(about).encode()]))
        for old in self.offsets()[:-RETAINED]:
            for name in (f"{self.file(old)[:-4]}.json", self.file(old)):
                if os.path.exists(name):
                    os.unlink(name)

    def put(self, name: str, write: Callable[[IO[bytes]], None]) -> None:
        """Makes a file, or replaces it: it is whole, and on the disk, before it has its name."""
        with replaced(name) as file:
            write(file)


def described(file: str, of: Mapping[str, object]) -> Snapshot:
    """A snapshot with what is beside it, which has to be of this share."""
    try:
        with open(f"{file[:-4]}.json", encoding="utf-8") as beside:
            about = json.load(beside)
    except (OSError, ValueError) as error:
        raise Failure(LOST_STREAMS, f"{file[:-4]}.json: {error}") from None
    for key, it in of.items():
        if about.get(key) != it:
            raise Failure(LOST_STREAMS, f"{file} is a snapshot with {key} {about.get(key)}, and not {it}")
    return Snapshot(file, about["offset"], about["identity"], about["names"], about.get("records"), about.get("digest"))


def load(share: Share, snapshot: Snapshot) -> None:
    """Carries out the records of a snapshot, which all have to be accepted, and those that were written. The first line may be that
    of a dump."""
    share.reports, count, head, name, digest = True, 0, b"", snapshot.file, hashlib.sha256()
    try:
        with open(name, "rb") as file:
            for k, block in enumerate(blocks(file)):
                digest.update(block)
                if not k and block.startswith(b"ok,"):
                    head, _, block = block.partition(b"\n")
                block += b"\n" * (not block.endswith(b"\n"))
                carry_out(share, name, block, count)
                count += block.count(b"\n")
    except OSError as error:
        raise Failure(LOST_STREAMS, f"{name}: {error.strerror}") from None
    if head not in (b"", b"ok,%d" % count):
        raise Failure(LOST_STREAMS, f"{name} is not a whole dump: {count} lines follow {head.decode()}")
    if snapshot.digest not in (None, digest.hexdigest()):
        raise Failure(LOST_STREAMS, f"{name} is not as it was written: it has {count} records of {snapshot.records}, or others")
    if share.batch.held is not None:
        raise Failure(LOST_STREAMS, f"{name} ends with an open batch")
    share.reports = share.share == 0


def carry_out(share: Share, name: str, block: bytes, before: int) -> None:
    """Carries out some records of a snapshot."""
    for index, record, reply in share.carry_out_part(block):
        if not reply.accepted:
            raise Failure(LOST_STREAMS, f"{name}: record {before + index + 1} is rejected: {record[:200]}")
