"""Draws tiles of the mirror ahead: those of level 14 in or near which a feature has changed.

It has a connection of its own, so that no line of the journal waits for it. A tile that it has not
drawn yet is drawn by the gateway when it is requested.
"""

import threading
import time

from journal_lines import Away, Fault, Pauses
from journal_table import JournalTable

MAKE_TILE = "SELECT streetmap_make_tile()"
# In seconds: between two reads of which tiles are due, if no line was put in.
AGAIN_SECONDS = 5.0
# After a tile it waits for the time that the tile took, but no longer than this.
LONGEST_REST = 1.0


class TileMaker(threading.Thread):
    """Draws tiles that are due until the process ends, in half of one processor at most."""

    def __init__(self, name: str, table: JournalTable) -> None:
        super().__init__(name="tiles", daemon=True)
        self.table = table
        self.pauses = Pauses(f"{name}: tiles")
        # Is set when tiles may be due.
        self.due = threading.Event()

    def run(self) -> None:
        while True:
            self.due.wait(AGAIN_SECONDS)
            self.due.clear()
            try:
                while self.make_one():
                    pass
                self.pauses.end()
            except (Away, Fault) as fault:
                self.pauses.wait(str(fault))
                self.due.set()

    def make_one(self) -> bool:
        """Draws a tile; whether one was due."""
        begun = time.monotonic()
        with self.table.transaction() as cursor:
            cursor.execute(MAKE_TILE)
            is_made = bool(cursor.fetchone()[0])
        if is_made:
            time.sleep(min(LONGEST_REST, time.monotonic() - begun))
        return is_made
