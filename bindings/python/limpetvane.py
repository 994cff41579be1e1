"""RDAP answers from a registry image, over the shared library of include/rdap.h.

    library = limpetvane.Library("librdap.so")
    answer = library.answer("/ip/192.0.2.1", image)     # image: the bytes of a registry image
    answer.kind, answer.records                         # Kind.IP, [2]
    library.handle(image, 2)                            # b"S2"
    library.batch(["/ip/192.0.2.1", "/x"], image)       # [Answer(..), Refused(..)]
    library.record_prefixes(image, 2)                   # [IPv4Network("192.0.2.0/28")]
    library.address_text(IPv6Address("2001:DB8:0::1"))  # "2001:db8::1"
    changes = limpetvane.Changes().remove_entity("E1").add_entity("E2", "Ada L")
    library.fold(image, changes)                        # the bytes of the final image

A refusal is raised as Refused, with its reason and status; that of a path in a batch is a value in the list.
That of a range, an address or a fold, which has no status, is raised as RangeRefused, AddressRefused or FoldRefused.
Calls are pure and may run in threads.
"""
import ctypes
import enum
import operator
from ipaddress import IPv4Address, IPv4Network, IPv6Address, IPv6Network
from typing import List, NamedTuple, Optional, Sequence, Tuple, Union

#: An image has at most so many records, so a list of so many places is never too short.
RECORDS = 4096
#: A batch has at most so many paths.
PATHS = 64
#: The prefixes of a range take at most so many bytes: 254 of IPv6, of 17 bytes each.
PREFIXES_ROOM = 4318
#: The text of an address takes at most so many bytes.
ADDRESS_TEXT_ROOM = 39
#: An image has at most so many bytes, so a room of so many is never too short for a fold.
IMAGE_BYTES = 262144
#: A change file has at most so many bytes.
CHANGES_BYTES = 65536

Address = Union[IPv4Address, IPv6Address]
Network = Union[IPv4Network, IPv6Network]
#: A network, or the first and the last address of a range.
Addresses = Union[Network, Tuple[Address, Address]]
Text = Union[str, bytes]


class Kind(enum.IntEnum):
    """What a path asked for."""
    NONE = 0
    IP = 1
    AUTNUM = 2
    DOMAIN = 3
    NAMESERVER = 4
    ENTITY = 5
    HELP = 6
    SEARCH = 7
    RELATION = 8


class Relation(enum.IntEnum):
    """Which relation a query of kind RELATION is."""
    NONE = 0
    UP = 1
    DOWN = 2
    TOP = 3
    BOTTOM = 4


class Tag(enum.IntEnum):
    """The tag of a record."""
    IPV4_NETWORK = 0x10
    IPV6_NETWORK = 0x11
    AS_BLOCK = 0x12
    DOMAIN = 0x13
    NAMESERVER = 0x14
    ENTITY = 0x15


class Answer(NamedTuple):
    """The record numbers that answer, ascending."""
    kind: Kind
    relation: Relation
    records: List[int]


class Refused(Exception):
    """A refusal. count is the number of places needed under reason 9; defect and place say how the image is defective under reason 2.
    Refusals are equal if their numbers are."""

    def __init__(self, reply):
        super().__init__(tuple(map(int, reply)))
        self.status, self.reason = reply[0], reply[1]
        self.kind, self.relation = Kind(reply[2]), Relation(reply[3])
        self.count, self.defect, self.place = reply[4], reply[5], reply[6]

    def __str__(self):
        return f"status {self.status}, reason {self.reason}"

    def __eq__(self, other):
        return isinstance(other, Refused) and self.args == other.args

    def __hash__(self):
        return hash(self.args)


class _Counted(Exception):
    """A refusal that has a reason, a count and no status."""

    def __init__(self, reason, count):
        super().__init__(reason, count)
        self.reason, self.count = reason, count

    def __str__(self):
        return f"reason {self.reason}"


class RangeRefused(_Counted):
    """A refusal of a range, which has a reason and no status: 6 if first is above last, 9 if there is too little room.
    count is the number of prefixes needed under reason 9."""


class AddressRefused(_Counted):
    """A refusal of an address, which has a reason and no status: 6 if it has neither 4 nor 16 bytes, 9 if there is too little room.
    count is the number of bytes needed under reason 9."""


class FoldRefused(Exception):
    """A refusal of a fold, which has a reason and no status: 2 if the image is defective, 11 if a change is at fault, 12 if the
    final image would be defective, 9 if there is too little room. Under 2 and 12 defect and place say how; under 11 offset is
    where in the file the change stands, and 0 if the file is too long; under 9 count is the number of bytes needed."""

    def __init__(self, reason, count, defect, place, offset, words):
        super().__init__(reason, count, defect, place, offset, words)
        self.reason, self.count, self.defect, self.place, self.offset = reason, count, defect, place, offset

    def __str__(self):
        return f"reason {self.reason}: {self.args[5]}"


#: The tags of the fields of a record, and of changes.
_RANGE, _HANDLE, _NAME, _ACTIVE = 0x20, 0x21, 0x22, 0x23
_ADD, _REMOVE = 0x30, 0x31


class _Key(NamedTuple):
    """What the records of a tag are sorted and removed by, and the same in words."""
    tag: Tag
    contents: bytes
    words: str


class Changes:
    """A change file, built change by change: bytes(changes) is the file, and len(changes) its number of bytes.

        Changes().remove_domain("old.example").add_domain("new.example", "D-1")

    Changes apply in the order in which they are made. A block is removed by its range, a domain or nameserver by its name, an entity
    by its handle. Texts are ASCII or bytes and are taken as they are: the fold judges them, and refuses a host name in capitals or
    a first above its last. What no change can spell raises ValueError or TypeError: text that is not ASCII or has above 65,535 bytes,
    a number of more than 32 bits, addresses of two families or with a scope."""

    def __init__(self):
        self._file, self._words = bytearray(), {}

    def __bytes__(self):
        return bytes(self._file)

    def __len__(self):
        return len(self._file)

    def change_at(self, offset: int) -> Tuple[int, str]:
        """The change that starts at an offset of the file, as FoldRefused has it: its index, counted from 0, and what it does.
        Raises ValueError if none starts there."""
        return list(self._words).index(offset), self._words[offset]

    def add_network(self, network: Addresses, handle: Text, name: Text, active: bool = True) -> "Changes":
        """Adds an IPv4Network or IPv6Network, or a pair of first and last address."""
        return self._add_block(_network(network), handle, name, active)

    def add_as_block(self, first: int, last: int, handle: Text, name: Text, active: bool = True) -> "Changes":
        """Adds the AS numbers from first to last."""
        return self._add_block(_as_block(first, last), handle, name, active)

    def add_domain(self, name: Text, handle: Text) -> "Changes":
        return self._add(_named(Tag.DOMAIN, name), _texts(handle, name))

    def add_nameserver(self, name: Text, handle: Text) -> "Changes":
        return self._add(_named(Tag.NAMESERVER, name), _texts(handle, name))

    def add_entity(self, handle: Text, name: Text) -> "Changes":
        return self._add(_named(Tag.ENTITY, handle), _texts(handle, name))

    def remove_network(self, network: Addresses) -> "Changes":
        """Removes the network of exactly these addresses."""
        return self._remove(_network(network))

    def remove_as_block(self, first: int, last: int) -> "Changes":
        return self._remove(_as_block(first, last))

    def remove_domain(self, name: Text) -> "Changes":
        return self._remove(_named(Tag.DOMAIN, name))

    def remove_nameserver(self, name: Text) -> "Changes":
        return self._remove(_named(Tag.NAMESERVER, name))

    def remove_entity(self, handle: Text) -> "Changes":
        return self._remove(_named(Tag.ENTITY, handle))

    def _add_block(self, key, handle, name, active):
        status = _field(_ACTIVE, bytes([bool(active)]))
        return self._add(key, _field(_RANGE, key.contents) + _texts(handle, name) + status)

    def _add(self, key, fields):
        return self._append(f"add {key.words}", _field(_ADD, _field(key.tag, fields)))

    def _remove(self, key):
        return self._append(f"remove {key.words}", _field(_REMOVE, bytes([key.tag]) + key.contents))

    def _append(self, words, change):
        self._words[len(self._file)] = words
        self._file += change
        return self


#: How far before its range the tag of a block stands.
_TAG_BEFORE = 6
_Reply = ctypes.c_uint32 * 7
_Pair = ctypes.c_uint32 * 2
_FoldReply = ctypes.c_uint32 * 5


class Library:
    """The shared library at a path."""

    def __init__(self, path: str):
        library = ctypes.CDLL(path)
        bytes_in = [ctypes.c_char_p, ctypes.c_size_t]
        bytes_out = [ctypes.POINTER(ctypes.c_char), ctypes.c_size_t, ctypes.POINTER(ctypes.c_uint32)]
        numbers_out = [ctypes.POINTER(ctypes.c_uint32), ctypes.c_size_t, ctypes.POINTER(ctypes.c_uint32)]
        self._answer = library.rdap_answer
        self._batch = library.rdap_batch
        for function in (self._answer, self._batch):
            function.argtypes = bytes_in + bytes_in + numbers_out
        self._relations = {
            Relation.UP: library.rdap_up, Relation.DOWN: library.rdap_down,
            Relation.TOP: library.rdap_top, Relation.BOTTOM: library.rdap_bottom,
        }
        for function in self._relations.values():
            function.argtypes = bytes_in + [ctypes.c_uint32] + numbers_out
        self._parts = (library.rdap_handle, library.rdap_name, library.rdap_range)
        for function in self._parts:
            function.argtypes = bytes_in + [ctypes.c_uint32, ctypes.POINTER(ctypes.c_uint32)]
        self._prefixes = library.rdap_prefixes
        self._address_text = library.rdap_address_text
        for function in (self._prefixes, self._address_text):
            function.argtypes = bytes_in + bytes_out
        self._fold = library.rdap_fold
        self._fold.argtypes = bytes_in + bytes_in + bytes_out
        for function in (self._answer, self._batch, *self._relations.values(), *self._parts,
                         self._prefixes, self._address_text, self._fold):
            function.restype = None

    def answer(self, path: Union[str, bytes], image: bytes, places: int = RECORDS) -> Answer:
        """Answers a path with its query. With fewer places than records to report, Refused has reason 9."""
        path, image = _bytes(path), bytes(image)
        return self._ask(self._answer, (path, len(path), image, len(image)), places)

    def batch(self, paths: Sequence[Union[str, bytes]], image: bytes, places: Optional[int] = None) -> List[Union[Answer, Refused]]:
        """Answers at most 64 paths, each as answer does; what answer would raise is a value in the list.
        With fewer places, where each path takes four and its record numbers, the list may be shorter than the paths,
        and a path may be refused with reason 9. A defective image or more paths raise Refused, with reason 2 or 10."""
        if isinstance(paths, (str, bytes, bytearray)):
            raise TypeError("paths is one path or text, not a sequence of paths")
        paths, image = [_bytes(path) for path in paths], bytes(image)
        # A line feed inside a path would make two paths of it. RFC 3986 allows neither a feed nor a NUL, so the answer is the same.
        text = b"\n".join(path.replace(b"\n", b"\0") for path in paths)
        if places is None:
            places = (4 + RECORDS) * min(len(paths), PATHS)
        # Without paths the text is one empty path, whose answer is left out; the image is judged all the same.
        numbers, reply = self._call(self._batch, (text, len(text), image, len(image)), places)
        return _answers(paths, numbers, reply[4])

    def relation(self, image: bytes, record: int, relation: Relation, places: int = RECORDS) -> Answer:
        """Asks a relation of a record number, as a relation path would for that block's range."""
        image = bytes(image)
        return self._ask(self._relations[Relation(relation)], (image, len(image), _number(record)), places)

    def handle(self, image: bytes, record: int) -> bytes:
        """The handle of a record; empty if the image is defective or there is no such record."""
        return self._part(self._parts[0], image, record)

    def name(self, image: bytes, record: int) -> bytes:
        """The name of a record, alike."""
        return self._part(self._parts[1], image, record)

    def range(self, image: bytes, record: int) -> bytes:
        """The range of a block, alike, and empty if the record is no block: first and last, 8 bytes or, of an IPv6 network, 32."""
        return self._part(self._parts[2], image, record)

    def prefixes(self, first: Address, last: Address, room: int = PREFIXES_ROOM) -> List[Network]:
        """The prefixes that together hold exactly first to last, ascending; no shorter list does. RangeRefused has reason 6
        if first is above last, and 9 with fewer bytes of room than the prefixes take, 5 or 17 each. Addresses of two families
        or other types raise TypeError, and one with a scope (fe80::1%eth0) ValueError: a prefix has none."""
        return self._networks(_bounds(first, last), room)

    def record_prefixes(self, image: bytes, record: int) -> List[Network]:
        """The prefixes of an IP network's range. Raises ValueError if the record is an AS block or no block,
        if there is no such record, and if the image is defective."""
        image = bytes(image)
        span = self._span(self._parts[2], image, record)
        if span.start == span.stop:
            known = self.handle(image, record)
            raise ValueError(f"record {record} is no block" if known else f"no record {record}, or a defective image")
        if image[span.start - _TAG_BEFORE] == Tag.AS_BLOCK:
            raise ValueError(f"record {record} is an AS block")
        return self._networks(image[span], PREFIXES_ROOM)

    def address_text(self, address: Union[Address, bytes], room: int = ADDRESS_TEXT_ROOM) -> str:
        """The text of an address, or of its 4 or 16 bytes: IPv4 as four decimals, IPv6 in the form of RFC 5952, with a dotted tail
        for ::ffff:0:0/96 and for no other. AddressRefused has reason 6 for other bytes, and 9 with fewer bytes of room than the text
        takes. Other types raise TypeError, and an address with a scope (fe80::1%eth0) ValueError: its text would lose it."""
        packed = _packed(address) if type(address) in (IPv4Address, IPv6Address) else bytes(memoryview(address))
        text, count = self._written(self._address_text, packed, room, AddressRefused)
        return text[:count].decode("ascii")

    def fold(self, image: bytes, changes: Union[bytes, Changes], room: int = IMAGE_BYTES) -> bytes:
        """Folds a change file into an image and gives the final image, in which records may have other numbers. FoldRefused has
        reason 2, 11 or 12, or 9 with fewer bytes of room than the final image takes."""
        image, file = bytes(image), bytes(changes)
        out, reply = (ctypes.c_char * room)(), _FoldReply()
        self._fold(image, len(image), file, len(file), out, room, reply)
        if reply[0] != 0:
            raise FoldRefused(*reply, _fault(reply, changes, file))
        return out[:reply[1]]

    @staticmethod
    def _call(function, arguments, places):
        """The list and the reply of a call with so many places."""
        if places < 0:
            raise ValueError("places is negative")
        numbers, reply = (ctypes.c_uint32 * places)(), _Reply()
        function(*arguments, numbers, places, reply)
        if reply[1] != 0:
            raise Refused(reply)
        return numbers, reply

    def _ask(self, function, arguments, places):
        numbers, reply = self._call(function, arguments, places)
        return Answer(Kind(reply[2]), Relation(reply[3]), numbers[:reply[4]])

    @staticmethod
    def _span(function, image, record):
        part = _Pair()
        function(image, len(image), _number(record), part)
        return slice(part[0], part[0] + part[1])

    def _part(self, function, image, record):
        image = bytes(image)
        return image[self._span(function, image, record)]

    @staticmethod
    def _written(function, given, room, refused):
        """The bytes and the count of a call on a range or an address."""
        out, reply = (ctypes.c_char * room)(), _Pair()
        function(given, len(given), out, room, reply)
        reason, count = reply
        if reason != 0:
            raise refused(reason, count)
        return out, count

    def _networks(self, bounds, room):
        """The prefixes of a range, as the bytes of its first and last."""
        out, count = self._written(self._prefixes, bounds, room, RangeRefused)
        width = len(bounds) // 2
        network = IPv4Network if width == 4 else IPv6Network
        entries = out[:count * (width + 1)]
        return [network((entries[at:at + width], entries[at + width])) for at in range(0, len(entries), width + 1)]


def _bytes(path):
    return path.encode("utf-8") if isinstance(path, str) else bytes(path)


def _answers(paths, numbers, answered):
    """The answers in the list of a batch."""
    answers, at = [], 0
    for path in paths[:answered]:
        status, reason, kind, count = numbers[at:at + 4]
        # Which relation it is stands in the path alone: its third segment, which is compared undecoded (S6.4).
        relation = Relation[path.split(b"/")[3].decode().upper()] if kind == Kind.RELATION else Relation.NONE
        at += 4
        if reason == 0:
            answers.append(Answer(Kind(kind), relation, numbers[at:at + count]))
            at += count
        else:
            answers.append(Refused((status, reason, kind, relation, count, 0, 0)))
    return answers


def _number(record):
    if not 0 <= record < 2 ** 32:
        raise ValueError("a record number has 32 bits")
    return record


def _bounds(first, last):
    """The bytes of a range of addresses."""
    if {type(first), type(last)} not in ({IPv4Address}, {IPv6Address}):
        raise TypeError("first and last are not two IPv4Address or two IPv6Address")
    return _packed(first) + _packed(last)


def _packed(address):
    """The bytes of an address."""
    if getattr(address, "scope_id", None) is not None:
        raise ValueError("an address with a scope")
    return address.packed


def _network(network):
    if isinstance(network, (IPv4Network, IPv6Network)):
        network = network.network_address, network.broadcast_address
    first, last = network
    bounds = _bounds(first, last)
    return _Key(Tag.IPV4_NETWORK if len(bounds) == 8 else Tag.IPV6_NETWORK, bounds, f"network {first} to {last}")


def _as_block(first, last):
    first, last = operator.index(first), operator.index(last)
    if not 0 <= min(first, last) <= max(first, last) < 2 ** 32:
        raise ValueError("an AS number has 32 bits")
    return _Key(Tag.AS_BLOCK, first.to_bytes(4, "big") + last.to_bytes(4, "big"), f"AS block {first} to {last}")


def _named(tag, text):
    return _Key(tag, _ascii(text), f"{tag.name.lower()} {text!r}")


def _ascii(text):
    return text.encode("ascii") if isinstance(text, str) else bytes(memoryview(text))


def _texts(handle, name):
    return _field(_HANDLE, _ascii(handle)) + _field(_NAME, _ascii(name))


def _field(tag, contents):
    if len(contents) >= 2 ** 16:
        raise ValueError("a field holds at most 65,535 bytes")
    return bytes([tag]) + len(contents).to_bytes(2, "big") + contents


#: What is wrong with an image, by its defect.
_DEFECTS = (
    "none", "it is too long", "it has a wrong start", "record {} is cut short, has an unknown tag or is one too many",
    "record {} has wrong fields", "record {} has wrong contents", "record {} is out of order",
    "record {} overlaps an earlier block without lying inside it",
)


def _fault(reply, changes, file):
    """The refusal of a fold in words."""
    reason, count, defect, place, offset = reply
    if reason == 9:
        return f"{count} bytes are needed"
    if reason != 11:
        image = "the image is" if reason == 2 else "the final image would be"
        return f"{image} defective: {_DEFECTS[defect].format(place)}"
    if len(file) > CHANGES_BYTES:
        return f"the change file has {len(file)} bytes, more than {CHANGES_BYTES}"
    change = "change {} ({})".format(*changes.change_at(offset)) if isinstance(changes, Changes) else "the change"
    also = {_ADD: " or adds a key that is already there", _REMOVE: " or removes a record that isn't there"}
    return f"{change} at byte {offset} is malformed{also.get(file[offset], '')}"
