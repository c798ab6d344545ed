"""The state of a game on the model as a short tuple of numbers, and back; `explore` says what belongs to it.

What can be changed is copied with all that shares it, and what cannot be compared is refused by its name.
"""

from __future__ import annotations

import copy
import enum
import operator
from collections.abc import Iterator
from fractions import Fraction
from types import FunctionType, MethodType
from typing import Any, Union

from chipfire.lab.model import Core

#: What does not change, and is compared as it is; the first of these are the most frequent.
_PLAIN = {int, bool, str, type(None), float, Fraction}
_FIXED = (*_PLAIN, complex, bytes, enum.Enum, type)

#: What has no value of its own to compare.
_CODE = (FunctionType, MethodType)
#: A value that can be changed: the number of its part, its name, and the value.
_Moving = tuple[int, str, Any]


class Freezer:
    """Makes values comparable. What can be changed and is met again is the same object again, and not an equal one."""

    def __init__(self, parts: Union[dict[int, Any], None] = None) -> None:
        #: Names of objects that are not gone into, by their `id`.
        self.parts: dict[int, Any] = {} if parts is None else parts
        #: What was met, by its `id`: its number, and the object, which has to stay alive as long as its `id` is kept.
        self.met: dict[int, tuple[int, Any]] = {}

    def frozen(self, value: Any) -> Any:
        """A value that can be compared, equal for equal values: the value itself exactly if it cannot be changed. What
        cannot be compared is a TypeError."""
        made = type(value)
        if made in _PLAIN or isinstance(value, _FIXED):
            return value
        if (name := self.parts.get(id(value))) is not None:
            return "part", name
        if isinstance(value, _CODE):
            raise TypeError("a function")
        if isinstance(value, (tuple, frozenset)):
            items = list(map(self.frozen, value))
            if all(map(operator.is_, items, value)):
                return value
            return made, tuple(items) if isinstance(value, tuple) else frozenset(items)
        has_value: Any = made.__hash__
        if has_value not in (None, object.__hash__):  # (such as a Decimal)
            return Freezer(self.parts)._gone_into(value)
        if (before := self.met.get(id(value))) is not None:
            return "again", before[0]
        self.met[id(value)] = len(self.met), value
        return self._gone_into(value)

    def _gone_into(self, value: Any) -> Any:
        """The same of what can be changed; the order of a dictionary counts."""
        made = type(value)
        if isinstance(value, (list, dict)):
            items = value.items() if isinstance(value, dict) else value
            return made, tuple(map(self.frozen, items))
        if isinstance(value, set):
            return made, frozenset(map(self.frozen, value))
        reduced = value.__reduce_ex__(4)
        if isinstance(reduced, str):
            return value
        self.met[id(reduced)] = len(self.met), reduced
        parts = [list(part) if isinstance(part, Iterator) else part for part in reduced[1:]]
        self.met[id(parts)] = len(self.met), parts
        return made, tuple(map(self.frozen, parts))


def frozen(value: Any) -> Any:
    """A value of its own that can be compared."""
    return Freezer().frozen(value)


class States:
    """The states of one game: `noted` returns the present one, `load` goes to another that was noted.

    A state has a number for what cannot be changed in each edge, each vertex and the rest of the game, and one for all
    that can. `like` makes two games have the same.
    """

    def __init__(self, core: Core, like: Union[States, None] = None) -> None:
        self.parts: list[Any] = [*core.edges, *core.vertices, core]
        if isinstance(core.not_state, str):
            raise ValueError(f"not_state is a tuple of names: not_state = ({core.not_state!r},)")
        #: What the detector leaves out; what the parts never change; and what is not gone into, by its `id`.
        self.left_out = {*core.not_state}
        self.good = [
            (part, name, getattr(part, name), _content(getattr(part, name)))
            for part in self.parts
            for name in getattr(part, "HELD", ())
        ]
        of_core = [(name, value) for part, name, value, _ in self.good if part is core]
        self.kept: dict[int, Any] = {id(part): index for index, part in enumerate(self.parts)}
        self.kept |= {id(value): name for name, value in of_core}
        self.same = {id(it): it for it in [*self.parts, *(value for _, value in of_core)]}
        #: Of each part the numbers of its values; and by number the values that cannot be changed, and whether their
        #: names are those of the start.
        self.numbers: list[dict[Any, int]] = like.numbers if like else [{} for _ in self.parts]
        self.values: list[list[tuple[dict[str, Any], bool]]] = (
            like.values if like else [[] for _ in self.parts]
        )
        #: The numbers of what can be changed, with 0 for nothing; by number the values as they are compared, and to copy.
        self.groups: dict[Any, int] = like.groups if like else {(): 0}
        self.copies: list[list[_Moving]] = like.copies if like else [[]]
        #: Where the values of each part stand, and their names at the start.
        self.held = [vars(part) for part in self.parts]
        self.names: list[list[str]] = (
            like.names if like else [[*self._values(held)] for held in self.held]
        )
        #: What knows the numbers of a part, and its values as they are read; none of a part that is read with care.
        self.readers: list[tuple[Any, Any]] = [
            (its.get, held.values()) for its, held in zip(self.numbers, self.held)
        ]
        self.now: tuple[int, ...] = ()

    def noted(self) -> tuple[int, ...]:
        """The present state: the number of each part's values that cannot be changed, and that of all that can."""
        numbers: list[int | None]
        try:
            # (most parts have values that were met before: their readers know the numbers)
            numbers = [number_of(tuple(values)) for number_of, values in self.readers]
        except TypeError:  # (some value can be changed)
            numbers = [None for _ in self.parts]
        group = 0
        if None in numbers:
            moving: list[_Moving] = []
            for index, number in enumerate(numbers):
                if number is None:
                    numbers[index] = self._number(index, moving)
            group = self._group(moving)
        self.now = (*numbers, group)  # type: ignore[arg-type]
        return self.now

    def _values(self, held: dict[str, Any]) -> dict[str, Any]:
        """The values of a part, but for those that the detector leaves out."""
        return (
            {name: value for name, value in held.items() if name not in self.left_out}
            if self.left_out
            else held
        )

    def _number(self, index: int, moving: list[_Moving]) -> int:
        """The number of what stands in a part, which is read with care; what can be changed is added to `moving`."""
        numbers = self.numbers[index]
        values = self._values(self.held[index])
        is_usual = [*values] == self.names[index]
        plain = {
            name: value for name, value in values.items() if self._is_plain(index, name, value)
        }
        if not is_usual or len(plain) != len(self.held[index]):
            self.readers[index] = numbers.get, ()
        others = tuple(name for name in values if name not in plain)
        moving += [(index, name, values[name]) for name in others]
        key: Any = tuple(values.values())
        if not is_usual or others:
            key = "attributes", frozenset(plain.items()), frozenset(others)
        if key not in numbers:
            numbers[key] = len(self.values[index])
            self.values[index].append((plain, is_usual))
        return numbers[key]

    def _is_plain(self, index: int, name: str, value: Any) -> bool:
        """Whether a value cannot be changed."""
        if type(value) in _PLAIN:
            return True
        return self._frozen(Freezer(self.kept), index, name, value) is value

    def _frozen(self, freezer: Freezer, index: int, name: str, value: Any) -> Any:
        """A value that can be compared; one that has none is refused by its name."""
        try:
            said = freezer.frozen(value)
            hash(said)
        except (TypeError, RecursionError):
            raise ValueError(
                f"{type(self.parts[index]).__name__}.{name}, of type {type(value).__name__}, cannot be compared, nor "
                f"can states with it: leave it out by not_state = ({name!r},), or keep plain values in its place"
            ) from None
        return said

    def _group(self, moving: list[_Moving]) -> int:
        """The number of all that can be changed."""
        freezer = Freezer(self.kept)
        key = tuple(
            [
                (index, name, self._frozen(freezer, index, name, value))
                for index, name, value in moving
            ]
        )
        if key not in self.groups:
            self.groups[key] = len(self.copies)
            self.copies.append(copy.deepcopy(moving, dict(self.same)))
        return self.groups[key]

    def load(self, state: tuple[int, ...]) -> None:
        """Makes the game that of a state that was noted, from the one that was noted or loaded last."""
        if state == self.now:
            return
        changed = [index for index, number in enumerate(state[:-1]) if number != self.now[index]]
        # (a list: all parts are loaded, also those after a part that lost what can be changed)
        is_cleared = any([self._load_plain(index, state[index]) for index in changed])
        group = state[-1]
        if group and (is_cleared or group != self.now[-1]):
            moving = copy.deepcopy(self.copies[group], dict(self.same))
            for index, name, value in moving:
                self.held[index][name] = value
        self.now = state

    def _load_plain(self, index: int, number: int) -> bool:
        """Puts what cannot be changed into a part, and says whether all else was taken out first."""
        plain, is_usual = self.values[index][number]
        held = self.held[index]
        is_cleared = not is_usual or len(held) != len(self.names[index])
        if is_cleared:
            # (all go, so that those of the start stand in their order again)
            for name in [*self._values(held)]:
                del held[name]
        held.update(plain)
        return is_cleared

    def check(self) -> None:
        """Checks that nothing changed that a game never changes."""
        for part, name, value, content in self.good:
            if getattr(part, name) is not value or _content(value) != content:
                of = type(part).__name__
                raise ValueError(
                    f"{of}.{name} changed, which a game never changes: keep yours elsewhere"
                )

    def changed(self, before: tuple[int, ...]) -> list[str]:
        """The attributes in which the present state is another than one before."""
        groups = {number: key for key, number in self.groups.items()}
        old, new = (
            {
                **{
                    (index, name): value
                    for index, number in enumerate(state[:-1])
                    for name, value in self.values[index][number][0].items()
                },
                **{(index, name): value for index, name, value in groups[state[-1]]},
            }
            for state in (before, self.now)
        )
        return [
            name
            for index, name in {**old, **new}
            if old.get((index, name), self) != new.get((index, name), self)
        ]


def _content(value: Any) -> Any:
    """What stands in a list of lists, by the objects."""
    if isinstance(value, list):
        return tuple(map(_content, value))
    return value if isinstance(value, int) else id(value)
