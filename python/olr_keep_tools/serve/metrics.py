"""What the service says of itself: a line for a person, and metrics for Prometheus."""
import enum
import os
import time
from dataclasses import dataclass, field
from typing import Iterator, List, NamedTuple

from olr_keep_tools.files import replaced
from olr_keep_tools.serve.exchange import Counts


class State(enum.Enum):
    """What the program does."""

    LOADING = "loads the map"
    SERVING = "serves"
    DOWN = "is started again soon"
    STOPPING = "ends"


class Metric(NamedTuple):
    """A number with its name, and what it is."""

    name: str
    kind: str
    help: str
    value: float


@dataclass
class Health:
    """What is known of the service."""

    counts: Counts
    log: str
    state: State = State.LOADING
    why_down: str = ""  # how the program last ended by itself
    table_fault: str = ""  # why the table isn't written; empty if it is
    position: int = -1
    behind: int = 0
    starts: int = 0
    connections: int = 0
    readers: int = 0
    waiting_bytes: int = 0
    unread_bytes: int = 0
    paths: int = 0
    refused: int = 0
    records: int = 0
    compacted_at: float = field(default_factory=time.time)

    def troubles(self) -> List[str]:
        """What has to be looked at."""
        found = []
        if self.state is not State.SERVING:
            found.append(f"the program {self.state.value}" + (f", since {self.why_down}" if self.why_down else ""))
        if self.table_fault:
            found.append(f"the table is not written: {self.table_fault}")
        elif self.position < 0:
            found.append("the table is not compared yet")
        return found

    def line(self) -> str:
        """All in one line."""
        trouble, size = self.troubles(), size_of(self.log)
        parts = [f"records {self.records}", f"log {size} bytes", f"paths {self.paths}", f"refused {self.refused}",
                 f"position {self.position}", f"carried out {self.counts.records}", f"rejected {self.counts.rejected}",
                 f"connections {self.connections}"]
        return f"{'TROUBLE' if trouble else 'OK'}: {', '.join([*trouble, *parts])}"

    def metrics(self) -> Iterator[Metric]:
        """All as metrics."""
        counts = self.counts
        yield Metric("up", "gauge", "Whether records are carried out.", int(self.state is State.SERVING))
        yield Metric("table_up", "gauge", "Whether the table is written.", int(self.position >= 0 and not self.table_fault))
        yield Metric("records_total", "counter", "Records that were carried out or rejected.", counts.records)
        yield Metric("rejected_total", "counter", "Records that were rejected, a batch as one.", counts.rejected)
        yield Metric("changed_total", "counter", "Answers of paths that changed.", counts.changed)
        yield Metric("not_known_total", "counter", "Records of which it is not known whether they were carried out.", counts.not_known)
        yield Metric("starts_total", "counter", "Starts of the program.", self.starts)
        yield Metric("last_edit_seconds", "gauge", "Seconds of the last edit.", round(counts.last_seconds, 6))
        yield Metric("longest_edit_seconds", "gauge", "Seconds of the longest edit.", round(counts.longest_seconds, 6))
        yield Metric("log_bytes", "gauge", "Size of the log.", size_of(self.log))
        yield Metric("log_records", "gauge", "Nodes and lines of the map.", self.records)
        yield Metric("compaction_age_seconds", "gauge", "Seconds since the log was replaced by a dump.",
                     max(0, round(time.time() - self.compacted_at)))
        yield Metric("paths", "gauge", "Registered paths.", self.paths)
        yield Metric("paths_refused", "gauge", "Paths that are not encodable.", self.refused)
        yield Metric("position", "gauge", "Position of the table.", self.position)
        yield Metric("table_behind", "gauge", "Changes that are not in the table yet.", self.behind)
        yield Metric("connections", "gauge", "Connections that send records.", self.connections)
        yield Metric("readers", "gauge", "Connections that read changes.", self.readers)
        yield Metric("waiting_bytes", "gauge", "Bytes of open batches.", self.waiting_bytes)
        yield Metric("unread_bytes", "gauge", "Bytes of replies that aren't read.", self.unread_bytes)
        yield Metric("read_seconds", "gauge", "Time of these metrics.", int(time.time()))

    def prometheus(self) -> str:
        """The metrics as text."""
        return "".join(f"# HELP olr_keep_{it.name} {it.help}\n# TYPE olr_keep_{it.name} {it.kind}\nolr_keep_{it.name} {it.value}\n"
                       for it in self.metrics())


def size_of(log: str) -> int:
    """The size of a log, 0 if it is not there."""
    try:
        return os.stat(log).st_size
    except OSError:
        return 0


def write_metrics(name: str, text: str) -> None:
    """Replaces a file of metrics as a whole."""
    with replaced(name, is_synced=False) as file:
        file.write(text.encode())
