"""Values that were used last, kept in memory up to a number of bytes."""

from collections import OrderedDict
from collections.abc import Hashable
from typing import Generic, TypeVar

Key = TypeVar("Key", bound=Hashable)
Value = TypeVar("Value")


class Kept(Generic[Key, Value]):
    """The values of some keys. The one that was used least recently is dropped first."""

    def __init__(self, most_bytes: int) -> None:
        self.most_bytes = most_bytes
        self.bytes = 0
        self.values: OrderedDict[Key, tuple[int, Value]] = OrderedDict()

    def get(self, key: Key) -> Value | None:
        found = self.values.get(key)
        if found is None:
            return None
        self.values.move_to_end(key)
        return found[1]

    def put(self, key: Key, value: Value, size: int) -> None:
        """Keeps a value, which with its key takes about `size` bytes."""
        if key in self.values:
            self.bytes -= self.values.pop(key)[0]
        self.values[key] = size, value
        self.bytes += size
        while self.bytes > self.most_bytes:
            _, (dropped, _) = self.values.popitem(last=False)
            self.bytes -= dropped
