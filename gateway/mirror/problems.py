"""The refusal of a filter, which names the place."""

from typing import Any

from ..problems import Problem
from .filters import FilterFault

# The characters of a filter that are shown around the place.
SHOWN = 30


class FilterProblem(Problem):
    """A filter that cannot be used. Beside the members of each refusal it has the parameter, the
    place in it (the number of the character, the first is 1), the text from there on, and what was
    expected there, if that is known."""

    def __init__(self, text: str, fault: FilterFault) -> None:
        detail = f"At character {fault.place + 1}: {fault.detail}"
        if fault.expected:
            detail += f" Expected: {', '.join(fault.expected)}."
        super().__init__(400, "bad_filter", detail)
        self.place = fault.place
        self.expected = fault.expected
        self.found = text[fault.place : fault.place + SHOWN]

    def members(self) -> dict[str, Any]:
        place = {"parameter": "filter", "position": self.place + 1, "found": self.found}
        return super().members() | place | {"expected": list(self.expected)}
