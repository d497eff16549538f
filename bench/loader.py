"""Requests over some connections at once, each by a thread of its own."""

import http.client
import itertools
import threading
import time
from collections.abc import Sequence

from measures import fail


class Loader:
    """Requests targets in turn until a time has passed, and counts the answers."""

    def __init__(self, port: int, targets: Sequence[str], seconds: float) -> None:
        self.port = port
        self.targets = targets
        self.seconds = seconds
        self.counts: list[int] = []
        self.faults: list[str] = []

    def rate(self, connections: int) -> float:
        """The answers of a second over a number of connections."""
        step = len(self.targets) // connections
        threads = [
            threading.Thread(target=self.load, args=[number * step])
            for number in range(connections)
        ]
        begun = time.monotonic()
        for thread in threads:
            thread.start()
        for thread in threads:
            thread.join()
        took = time.monotonic() - begun
        if self.faults:
            fail(self.faults[0])
        return sum(self.counts) / took

    def load(self, first: int) -> None:
        """Requests on one connection, beginning with one of the targets. A server that does not
        answer in a minute is a fault."""
        connection = http.client.HTTPConnection("127.0.0.1", self.port, timeout=60)
        ends, count = time.monotonic() + self.seconds, 0
        for target in itertools.islice(itertools.cycle(self.targets), first, None):
            if time.monotonic() > ends:
                break
            try:
                connection.request("GET", target)
                answer = connection.getresponse()
                text = answer.read()
            except (OSError, http.client.HTTPException) as fault:
                self.faults.append(f"{target}: {fault!r}")
                break
            if answer.status != 200:
                self.faults.append(f"{target}: {answer.status} {text[:200]!r}")
                break
            count += 1
        connection.close()
        self.counts.append(count)
