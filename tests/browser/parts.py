"""Parts of the group, two at once: each has a browser, and a site of its own."""

import queue
import threading
import time
import traceback
from collections.abc import Callable, Sequence
from dataclasses import dataclass, field, replace

from harness import Context

from browser.browsers import kept_browsers
from browser.page import GIVEN_UP

Part = Callable[[Context], None]
# More at once would slow each other down: a part has a browser, nginx and a server.
AT_ONCE = 2
# The seconds to wait for running parts once the group is given up.
LAST_SECONDS = 60
# The number of parts named that took longest.
NAMED = 4


def name_of(part: Part) -> str:
    return f"{part.__module__.rpartition('.')[2]}.{part.__name__}"


@dataclass
class Running:
    """Parts that wait for a thread, and what came of those that ran."""

    context: Context
    waiting: queue.SimpleQueue[Part] = field(default_factory=queue.SimpleQueue)
    counted: list[Context] = field(default_factory=list)
    seconds: dict[str, float] = field(default_factory=dict)

    def work(self) -> None:
        """Runs parts until none waits."""
        with kept_browsers():
            while not GIVEN_UP.is_set():
                try:
                    part = self.waiting.get_nowait()
                except queue.Empty:
                    return
                self.run(part)

    def run(self, part: Part) -> None:
        """Runs a part. If it cannot go on, it has failed, and the others go on."""
        own = replace(self.context, passed=0, failures=[])
        begun = time.monotonic()
        try:
            part(own)
        except (Exception, SystemExit):
            print(traceback.format_exc(), end="", flush=True)
            own.failures.append(f"{name_of(part)} did not end")
        self.seconds[name_of(part)] = time.monotonic() - begun
        self.counted.append(own)

    def longest(self) -> str:
        """The parts that took longest, with their seconds."""
        ordered = sorted(self.seconds.items(), key=lambda it: -it[1])
        return ", ".join(f"{name} {seconds:.0f} s" for name, seconds in ordered[:NAMED])


def run_parts(context: Context, parts: Sequence[Part]) -> None:
    """Runs parts, the first ones first, and counts their checks."""
    running = Running(context)
    for part in parts:
        running.waiting.put(part)
    threads = [threading.Thread(target=running.work, daemon=True) for _ in range(AT_ONCE)]
    try:
        for thread in threads:
            thread.start()
        for thread in threads:
            thread.join()
    finally:
        # The group may be stopped here from outside: parts that run end at their next wait.
        GIVEN_UP.set()
        for thread in threads:
            thread.join(LAST_SECONDS)
        context.passed += sum(it.passed for it in running.counted)
        context.failures += [failure for it in running.counted for failure in it.failures]
    context.check("all parts ran", len(running.counted), len(parts))
    print(f"  the longest of {len(parts)} parts: {running.longest()}", flush=True)
