"""What a worker counts, in the text form of Prometheus."""

from __future__ import annotations

from collections import Counter
from typing import Iterator

BOUNDS = (0.001, 0.0025, 0.005, 0.01, 0.025, 0.05, 0.1, 0.25, 0.5, 1.0, 2.5, 10.0)


class Metrics:
    """Counts of a worker since it began."""

    def __init__(self) -> None:
        self.accepted = self.collisions = self.lost_snapshots = self.streams = self.cut_streams = self.running = 0
        self.requests: "Counter[tuple[str, int]]" = Counter()
        self.times: "Counter[float]" = Counter()
        self.seconds, self.count = 0.0, 0

    def timed(self, method: str, status: int, seconds: float) -> None:
        """Counts a request that has ended."""
        self.requests[method, status] += 1
        self.seconds, self.count = self.seconds + seconds, self.count + 1
        for bound in BOUNDS:
            self.times[bound] += seconds <= bound

    def lines(self, states: int) -> "Iterator[str]":
        """The lines of /metrics."""
        counters = (
            ("accepted_changes_total", "changes that were stored", self.accepted),
            ("collisions_total", "changes that were made again, since another worker was faster", self.collisions),
            ("lost_snapshots_total", "snapshots that were not stored", self.lost_snapshots),
            ("cut_streams_total", "streams that were cut, since their clients were too slow", self.cut_streams),
        )
        gauges = (("streams", "open streams", self.streams), ("running_requests", "requests now", self.running), ("states", "states that are kept", states))
        for sort, rows in (("counter", counters), ("gauge", gauges)):
            for name, about, value in rows:
                yield from (f"# HELP editlens_{name} {about}", f"# TYPE editlens_{name} {sort}", f"editlens_{name} {value}")
        yield from ("# HELP editlens_requests_total requests by method and status", "# TYPE editlens_requests_total counter")
        for (method, status), count in sorted(self.requests.items()):
            yield f'editlens_requests_total{{method="{method}",status="{status}"}} {count}'
        yield from ("# HELP editlens_request_seconds the time of a request", "# TYPE editlens_request_seconds histogram")
        for bound in BOUNDS:
            yield f'editlens_request_seconds_bucket{{le="{bound}"}} {self.times[bound]}'
        yield f'editlens_request_seconds_bucket{{le="+Inf"}} {self.count}'
        yield from (f"editlens_request_seconds_sum {self.seconds}", f"editlens_request_seconds_count {self.count}")
