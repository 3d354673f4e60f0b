"""Places inside a JSON value."""

import re
from typing import Any, List, Optional, Tuple, Union

from .texts import Refused, shown

PLACE = re.compile(r"0|[1-9][0-9]{0,8}")

Place = Tuple[Union[str, int], ...]  # the names of members and the places in lists that lead to a value

# What stands at a place that is not there; `null` is there.
NOTHING = object()


class Path:
    """A member, by its whole name, or by names and places in lists that points part: `motor.temp`, `wheels.0.speed`."""

    def __init__(self, text: str):
        self.text, self.parts = text, text.split(".")

    def of(self, members: Any) -> Any:
        """What an object has there."""
        whole = members.get(self.text, NOTHING)
        if len(self.parts) == 1:
            return whole
        inside = self.inside(members)
        if whole is not NOTHING and inside is not NOTHING:
            raise Refused(f"{shown(self.text)} is a member, and a path to another one")
        return inside if whole is NOTHING else whole

    def inside(self, value: Any) -> Any:
        for part in self.parts:
            _, value = step(value, part)
        return value

    def place(self, members: Any) -> Optional[Place]:
        """Where an object has what was found there; None where it has nothing."""
        if self.text in members:
            return (self.text,)
        place: List[Union[str, int]] = []
        value = members
        for part in self.parts:
            at, value = step(value, part)
            place.append(at)
        return None if value is NOTHING else tuple(place)


def step(value: Any, part: str) -> Tuple[Union[str, int], Any]:
    """A name or a place in a list, and what a value has there."""
    if isinstance(value, dict):
        return part, value.get(part, NOTHING)
    if isinstance(value, list) and PLACE.fullmatch(part) and int(part) < len(value):
        return int(part), value[int(part)]
    return part, NOTHING
