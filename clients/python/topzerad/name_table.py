"""Names of objects: the bytes of object 0 as a table of names (`docs/FORMATS.md`, "Names of objects")."""

from __future__ import annotations

import unicodedata
from typing import Container, Dict, List, Tuple, Union

from .errors import BAD_RANGE, NO_OBJECT, TOO_MANY, Refused, bad_argument
from .operations import OBJECT_COUNT, Operation, create, remove, set_length, write

MAX_OBJECT_NAME = 254
"""The most bytes of an object's name."""

SLOT = 256
HEADER = b"topzerad names 1".ljust(SLOT, b"\0")
EMPTY_SLOT = bytes(SLOT)


def _is_name(name: bytes) -> bool:
    try:
        text = name.decode()
    except UnicodeDecodeError:
        return False
    return 0 < len(name) <= MAX_OBJECT_NAME and not any(c == "/" or unicodedata.category(c) == "Cc" for c in text)


def object_name(name: Union[str, bytes]) -> bytes:
    """The bytes of an object's name, if it is one. Else it is refused by `BadArgument`."""
    content = name.encode(errors="surrogateescape") if isinstance(name, str) else bytes(name)
    if not _is_name(content):
        raise bad_argument(f"object name {name!r}: 1 to {MAX_OBJECT_NAME} bytes of UTF-8, no control characters, no /")
    return content


def slot_of(name: bytes) -> bytes:
    """The slot of a name."""
    return (len(name).to_bytes(2, "little") + name).ljust(SLOT, b"\0")


class NameTable:
    """The names in the bytes of object 0, which are refused if they are no table of names."""

    def __init__(self, content: bytes) -> None:
        self.is_empty = not content
        self.names: Dict[bytes, int] = {}
        """The numbers of the objects, by their names."""
        if content and not self._read(content):
            raise Refused(BAD_RANGE, cause="object 0 is no table of names")

    def _read(self, content: bytes) -> bool:
        count, rest = divmod(len(content), SLOT)
        if rest or count > OBJECT_COUNT or content[:SLOT] != HEADER:
            return False
        for number in range(1, count):
            slot = content[SLOT * number : SLOT * (number + 1)]
            if slot == EMPTY_SLOT:
                continue
            name = slot[2 : 2 + int.from_bytes(slot[:2], "little")]
            if not _is_name(name) or slot != slot_of(name) or name in self.names:
                return False
            self.names[name] = number
        return True

    def find(self, name: bytes) -> int:
        """The number of the object of this name."""
        if name not in self.names:
            raise Refused(NO_OBJECT, cause=f'no object has the name "{name.decode()}"')
        return self.names[name]

    def free_number(self, objects: Container[int]) -> int:
        """The lowest number from 1 on without a name that is none of these objects."""
        taken = set(self.names.values())
        for number in range(1, OBJECT_COUNT):
            if number not in taken and number not in objects:
                return number
        raise Refused(TOO_MANY, cause="no number is left for an object")

    def start(self, name: bytes, objects: Container[int]) -> Tuple[int, List[Operation]]:
        """The number of the object of this name, and the operations that make it, or empty it if it is there."""
        if name in self.names:
            number = self.names[name]
            return number, [set_length(number, 0) if number in objects else create(number)]
        number = self.free_number(objects)
        header = [write(0, 0, HEADER)] if self.is_empty else []
        if 0 not in objects:
            header.insert(0, create(0))
        return number, [*header, write(0, SLOT * number, slot_of(name)), create(number)]

    def end(self, name: bytes, objects: Container[int]) -> List[Operation]:
        """The operations that remove the object of this name, if it is there, and the name."""
        number = self.find(name)
        gone = [remove(number)] if number in objects else []
        return [*gone, write(0, SLOT * number, EMPTY_SLOT)]
