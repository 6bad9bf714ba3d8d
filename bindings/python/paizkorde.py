"""JSON documents (RFC 8259, whole numbers only), by a proved library and ctypes.

>>> doc = Document.parse('{"name":"kiosk","ports":[80,443]}')
>>> doc["ports"][1].to_python()
443
>>> doc.insert("", "debug", True)
>>> str(doc)
'{"name":"kiosk","ports":[80,443],"debug":true}'

The shared object is libsj_c.so beside this file, or the file that PAIZKORDE names. Each call holds
the interpreter's lock, and what reads or edits a document the document's own, so that threads may share
one; a Python that runs without the interpreter's lock takes another around each use. Have 512 KB of
stack, and make no call in the child of a fork of a program with threads.
"""

from __future__ import annotations

import ctypes
import functools
import json
import os
import threading
from typing import Any, Callable, Dict, Iterator, List, Optional, Tuple, TypeVar, Union, cast

__all__ = ["Buffers", "Document", "Value", "JsonError", "session"]

Bytes = Union[str, bytes, bytearray]
_Call = Callable[[Any], Any]
_Method = TypeVar("_Method", bound=Callable[..., Any])


class _Handle(ctypes.Structure):
    _fields_ = [("at", ctypes.c_void_p), ("is_open", ctypes.c_bool)]


class _Found(ctypes.Structure):
    _fields_ = [
        ("kind", ctypes.c_uint32),
        ("is_true", ctypes.c_bool),
        ("is_signed", ctypes.c_bool),
        ("is_unsigned", ctypes.c_bool),
        ("signed", ctypes.c_int64),
        ("unsigned", ctypes.c_uint64),
        ("low", ctypes.c_uint64),
        ("high", ctypes.c_uint64),
        ("len", ctypes.c_size_t),
        ("text", ctypes.c_void_p),
    ]


class _Member(ctypes.Structure):
    _fields_ = [("key", ctypes.c_void_p), ("key_len", ctypes.c_size_t), ("value", _Found)]


class Buffers(ctypes.Structure):
    """What readings share, one after another: room at once for as much as the largest text so far had."""

    _fields_ = [("_nodes", ctypes.c_size_t)]


_DOC = _TEXT = ctypes.POINTER(_Handle)
_BUFFERS = ctypes.POINTER(Buffers)
_FOUND = ctypes.POINTER(_Found)
_MEMBER = ctypes.POINTER(_Member)
_READ = ctypes.c_char_p
_WRITTEN = _PLACE = ctypes.c_void_p
_SIZE = ctypes.c_size_t
_SIZE_OUT = ctypes.POINTER(ctypes.c_size_t)
_PLACE_OUT = ctypes.POINTER(ctypes.c_void_p)
_BOOL = ctypes.c_bool
_BOOL_OUT = ctypes.POINTER(ctypes.c_bool)
_U32 = ctypes.c_uint32
_U64 = ctypes.c_uint64
_I64 = ctypes.c_int64

# Each call of sj.h: what it answers, and what it takes.
_CALLS: Dict[str, Tuple[Any, ...]] = {
    "sj_read": (_U32, _DOC, _WRITTEN, _SIZE, _BOOL),
    "sj_read_with_buffers": (_U32, _DOC, _WRITTEN, _SIZE, _BUFFERS),
    "sj_free": (None, _DOC),
    "sj_clone": (_U32, _DOC, _DOC),
    "sj_same": (_U32, _DOC, _DOC, _BOOL_OUT),
    "sj_of_null": (_U32, _DOC),
    "sj_of_bool": (_U32, _DOC, _BOOL),
    "sj_of_signed": (_U32, _DOC, _I64),
    "sj_of_unsigned": (_U32, _DOC, _U64),
    "sj_of_wide": (_U32, _DOC, _U64, _U64, _BOOL),
    "sj_of_text": (_U32, _DOC, _READ, _SIZE),
    "sj_of_array": (_U32, _DOC),
    "sj_of_object": (_U32, _DOC),
    "sj_print": (_U32, _DOC, _TEXT, _BOOL),
    "sj_print_canonical": (_U32, _DOC, _TEXT),
    "sj_text_bytes": (_U32, _TEXT, _PLACE_OUT, _SIZE_OUT),
    "sj_text_copy": (_SIZE, _TEXT, _WRITTEN, _SIZE),
    "sj_text_free": (None, _TEXT),
    "sj_find": (_U32, _DOC, _READ, _SIZE, _FOUND),
    "sj_print_at": (_U32, _DOC, _READ, _SIZE, _TEXT, _BOOL),
    "sj_clone_at": (_U32, _DOC, _READ, _SIZE, _DOC),
    "sj_items": (_U32, _DOC, _READ, _SIZE, _SIZE, _FOUND, _SIZE, _SIZE_OUT),
    "sj_members": (_U32, _DOC, _READ, _SIZE, _SIZE, _MEMBER, _SIZE, _SIZE_OUT),
    "sj_peek": (_U32, _WRITTEN, _SIZE, _BOOL, _READ, _SIZE, _FOUND),
    "sj_insert": (_U32, _DOC, _READ, _SIZE, _READ, _SIZE, _DOC, _DOC),
    "sj_push": (_U32, _DOC, _READ, _SIZE, _DOC, _DOC),
    "sj_put": (_U32, _DOC, _READ, _SIZE, _DOC, _DOC),
    "sj_set": (_U32, _DOC, _READ, _SIZE, _DOC, _DOC),
    "sj_remove": (_U32, _DOC, _READ, _SIZE, _READ, _SIZE, _DOC),
    "sj_pop": (_U32, _DOC, _READ, _SIZE, _DOC),
    "sj_patch": (_U32, _DOC, _DOC, _SIZE_OUT),
    "sj_diff": (_U32, _DOC, _DOC, _DOC),
    "sj_merge": (_U32, _DOC, _DOC),
    "sj_merge_diff": (_U32, _DOC, _DOC, _DOC),
    "sj_lines": (_U32, _DOC, _WRITTEN, _SIZE, _TEXT),
    "sj_session": (_U32, _WRITTEN, _SIZE, _U32, _BOOL, _TEXT),
}


def _loaded() -> Any:
    beside = os.path.join(os.path.dirname(os.path.abspath(__file__)), "libsj_c.so")
    library = ctypes.PyDLL(os.environ.get("PAIZKORDE", beside))
    for name, (result, *arguments) in _CALLS.items():
        call = getattr(library, name)
        call.restype, call.argtypes = result, arguments
    return library


_lib = _loaded()

_OUT_OF_MEMORY, _MISSING, _NO_MERGE_PATCH, _TOO_DEEP = 1, 4, 10, 21
_PATCH_NOT_AN_ARRAY = 32
_NULL, _BOOLEAN, _I128, _STRING, _ARRAY, _OBJECT = 0, 1, 4, 6, 7, 8
_WHY = {
    2: "too long",
    3: "no document",
    4: "nothing stands at the pointer",
    5: "not an object",
    6: "not an array",
    7: "not a JSON pointer",
    8: "not UTF-8",
    9: "no such form",
    16: "invalid UTF-8",
    17: "syntax error",
    18: "lone surrogate",
    19: "number with a fraction or an exponent",
    20: "number too large",
    21: "nested too deep",
    32: "a patch is an array",
    33: "no object",
    34: 'no "op" that names an operation',
    35: 'no "path" that is a pointer',
    36: 'no "from" that is a pointer',
    37: 'no "value"',
    48: "nothing stands there",
    49: "no such place in the array",
    50: "the whole document cannot be removed",
    51: "a value cannot be moved into itself",
    52: "the value differs",
}


class JsonError(ValueError):
    """Why a call was refused; `code` is its status in sj.h, `operation` the number of a patch's operation."""

    def __init__(self, code: int, operation: Optional[int] = None) -> None:
        why = _WHY.get(code, f"refused ({code})")
        super().__init__(why if operation is None else f"operation {operation}: {why}")
        self.code, self.operation = code, operation

    def __reduce__(self) -> Any:
        return JsonError, (self.code, self.operation)


def _alone(method: _Method) -> _Method:
    """The method of a document, by one thread at a time: what it reads is copied out before another edits."""

    @functools.wraps(method)
    def held(self: "Document", *words: Any, **named: Any) -> Any:
        with self._lock:
            return method(self, *words, **named)

    return cast(_Method, held)


def _check(code: int, operation: Optional[int] = None) -> None:
    if code == _OUT_OF_MEMORY:
        raise MemoryError
    if code:
        raise JsonError(code, operation)


def _utf8(text: Bytes) -> bytes:
    if isinstance(text, (bytes, bytearray)):
        return bytes(text)
    if isinstance(text, str):
        return text.encode("utf-8")
    raise TypeError(f"no text: {text!r}")


def _name(text: str) -> bytes:
    """A path or a key."""
    if isinstance(text, str):
        return text.encode("utf-8")
    raise TypeError(f"no path and no key: {text!r}")


def _room(data: bytes) -> Any:
    """A copy that the library may write over."""
    return (ctypes.c_char * max(1, len(data))).from_buffer_copy(data or b"\0")


def _string(at: Optional[int], length: int) -> str:
    return ctypes.string_at(at, length).decode("utf-8") if at and length else ""


def _printed(call: _Call) -> str:
    """The print that the call puts into a handle."""
    text, at, length = _Handle(), ctypes.c_void_p(), ctypes.c_size_t()
    try:
        _check(call(ctypes.byref(text)))
        _check(_lib.sj_text_bytes(ctypes.byref(text), ctypes.byref(at), ctypes.byref(length)))
        return _string(at.value, length.value)
    finally:
        _lib.sj_text_free(ctypes.byref(text))


def _token(key: Union[str, int]) -> str:
    return "/" + str(key).replace("~", "~0").replace("/", "~1")


def session(data: Bytes, last: bool = False) -> str:
    """A document, a line ---, and command lines: the replies, each with a line feed behind it."""
    given = _utf8(data)
    room = _room(given)
    return _printed(lambda text: _lib.sj_session(room, len(given), 0, last, text))


class Document:
    """A document that owns its texts: `parse` reads one, `of` makes one of Python's values.

    It reads as a dict or a list does; its parts are `Value`s. Edits name places by JSON pointers
    (RFC 6901): "" is the whole document, "/ports/0" an item. A refused call raises JsonError, or
    MemoryError, and leaves the document as it was; only `session` may have done some commands.
    `Document()` is a null. A value is true as Python's would be, so ask `is None` for what is not there.
    """

    def __init__(self) -> None:
        self._hold_none()
        _check(_lib.sj_of_null(self._at))

    def _hold_none(self) -> None:
        self._lock = threading.RLock()
        self._handle = _Handle()
        self._at = ctypes.byref(self._handle)

    def __del__(self) -> None:
        if hasattr(self, "_at"):
            _lib.sj_free(self._at)

    @classmethod
    def parse(cls, text: Bytes, last: bool = False) -> "Document":
        """Reads a text. Of several members with one key the first stays, or, with last, the last, in its place."""
        data = _utf8(text)
        doc = cls()
        _check(_lib.sj_read(doc._at, _room(data), len(data), last))
        return doc

    @classmethod
    def parse_with_buffers(cls, text: Bytes, buffers: Buffers) -> "Document":
        """Reads a text, one of many; of several members with one key the first stays."""
        data = _utf8(text)
        doc = cls()
        _check(_lib.sj_read_with_buffers(doc._at, _room(data), len(data), ctypes.byref(buffers)))
        return doc

    @classmethod
    def of(cls, value: Any) -> "Document":
        """A document of None, a bool, an int, a str, a list, a tuple, a dict, a document or a Value.

        The keys of a dict are strs. TypeError for anything else, JsonError for an int past 128 bits, UnicodeEncodeError for half of a
        surrogate pair, RecursionError past some 490 levels.
        """
        doc = cls()
        if isinstance(value, (Document, Value)):
            return value.copy()
        if isinstance(value, bool):
            _check(_lib.sj_of_bool(doc._at, value))
        elif isinstance(value, int):
            doc._set_number(value)
        elif isinstance(value, str):
            data = value.encode("utf-8")
            _check(_lib.sj_of_text(doc._at, data, len(data)))
        elif isinstance(value, (list, tuple)):
            _check(_lib.sj_of_array(doc._at))
            for item in value:
                doc.push("", item)
        elif isinstance(value, dict):
            _check(_lib.sj_of_object(doc._at))
            for key, item in value.items():
                doc.insert("", key, item)
        elif value is not None:
            raise TypeError(f"no JSON value: {value!r}")
        return doc

    def _set_number(self, value: int) -> None:
        if -(2**63) <= value < 2**63:
            _check(_lib.sj_of_signed(self._at, value))
        elif 0 <= value < 2**64:
            _check(_lib.sj_of_unsigned(self._at, value))
        elif -(2**127) <= value < 2**128:
            words = value % 2**128
            _check(_lib.sj_of_wide(self._at, words % 2**64, words >> 64, value < 0))
        else:
            raise JsonError(20)

    @_alone
    def pointer(self, path: str) -> Optional["Value"]:
        """What stands at a pointer, or None; JsonError where the text is no pointer."""
        found, data = _Found(), _name(path)
        code = _lib.sj_find(self._at, data, len(data), ctypes.byref(found))
        if code == _MISSING:
            return None
        _check(code)
        return Value(self, path, found)

    @property
    def root(self) -> "Value":
        """The whole document as a value."""
        root = self.pointer("")
        assert root is not None
        return root

    def get(self, key: Union[str, int], default: Any = None) -> Any:
        """The member of a key, or the item at a place; the default where there is none."""
        return self.root.get(key, default)

    def __getitem__(self, key: Union[str, int]) -> "Value":
        return self.root[key]

    def __len__(self) -> int:
        return len(self.root)

    def __iter__(self) -> Iterator[Any]:
        return iter(self.root)

    def __contains__(self, key: object) -> bool:
        return key in self.root

    def keys(self) -> List[str]:
        """The keys of an object, in order."""
        return self.root.keys()

    def values(self) -> List["Value"]:
        """The values of an object, or the items of an array, in order."""
        return self.root.values()

    def items(self) -> List[Tuple[str, "Value"]]:
        """The members of an object, in order."""
        return self.root.items()

    @_alone
    def insert(self, path: str, key: str, value: Any) -> Optional["Document"]:
        """Sets the value of the key of the object at the pointer; answers what was there."""
        where, name, given = _name(path), _name(key), Document.of(value)
        return _old(lambda old: _lib.sj_insert(self._at, where, len(where), name, len(name), given._at, old))

    @_alone
    def push(self, path: str, value: Any) -> None:
        """Puts the value behind the items of the array at the pointer."""
        where, given = _name(path), Document.of(value)
        _old(lambda old: _lib.sj_push(self._at, where, len(where), given._at, old))

    @_alone
    def put(self, path: str, value: Any) -> Optional["Document"]:
        """Puts the value in the place of what stands at the pointer; answers that, and so never None."""
        where, given = _name(path), Document.of(value)
        return _old(lambda old: _lib.sj_put(self._at, where, len(where), given._at, old))

    @_alone
    def set(self, path: str, value: Any) -> Optional["Document"]:
        """Sets what the pointer leads to, and makes the objects that are missing on the way; answers what was there."""
        where, given = _name(path), Document.of(value)
        return _old(lambda old: _lib.sj_set(self._at, where, len(where), given._at, old))

    @_alone
    def remove(self, path: str, key: str) -> Optional["Document"]:
        """Takes the member of the key out of the object at the pointer; answers its value, or None."""
        where, name = _name(path), _name(key)
        return _old(lambda old: _lib.sj_remove(self._at, where, len(where), name, len(name), old))

    @_alone
    def pop(self, path: str) -> Optional["Document"]:
        """Takes the last item of the array at the pointer; answers it, or None."""
        where = _name(path)
        return _old(lambda old: _lib.sj_pop(self._at, where, len(where), old))

    @_alone
    def patch(self, operations: Any) -> None:
        """Does the operations of a patch (RFC 6902), a document or a list of dicts: all of them or none."""
        given, at = _other(self, operations), ctypes.c_size_t()
        code = _lib.sj_patch(self._at, given._at, ctypes.byref(at))
        _check(code, at.value if code > _PATCH_NOT_AN_ARRAY else None)

    def diff(self, to: Any) -> "Document":
        """The patch by which this document becomes the same as another: without operations where they are the same."""
        patch, given = Document(), _other(self, to)
        _check(_lib.sj_diff(self._at, given._at, patch._at))
        return patch

    @_alone
    def merge(self, patch: Any) -> None:
        """Merges a patch (RFC 7396), a document or a dict: its members go over those here, a None takes one out."""
        given = _other(self, patch)
        _check(_lib.sj_merge(self._at, given._at))

    def merge_diff(self, to: Any) -> Optional["Document"]:
        """The merge patch by which this document becomes the same as another; None where none leads there."""
        patch, given = Document(), _other(self, to)
        code = _lib.sj_merge_diff(self._at, given._at, patch._at)
        if code == _NO_MERGE_PATCH:
            return None
        _check(code)
        return patch

    def session(self, *commands: List[Any]) -> List[str]:
        """Answers commands, as ["insert", "/a", "k", 1]; their replies as texts."""
        return [self._replied(json.dumps(command).encode()) for command in commands]

    @_alone
    def _replied(self, line: bytes) -> str:
        room = _room(line)
        return _printed(lambda text: _lib.sj_lines(self._at, room, len(line), text))[:-1]

    def dumps(self, pretty: bool = False) -> str:
        """The compact text, or the one with two spaces a level."""
        return _printed(lambda text: _lib.sj_print(self._at, text, pretty))

    def canonical(self) -> str:
        """The text in the canonical form (RFC 8785), but that numbers past 2^53 have all their digits:
        equal for documents that are the same, and for those alone."""
        return _printed(lambda text: _lib.sj_print_canonical(self._at, text))

    def __str__(self) -> str:
        return self.dumps()

    def __repr__(self) -> str:
        return f"Document.parse({self.dumps()!r})"

    def __bool__(self) -> bool:
        return bool(self.root)

    def __eq__(self, other: object) -> Any:
        """Members in any order, numbers by their value; also with a value of Python's."""
        if other is self:
            return True
        given = _comparable(self, other)
        if given is None:
            return NotImplemented
        same = ctypes.c_bool()
        code = _lib.sj_same(self._at, given._at, ctypes.byref(same))
        if code == _TOO_DEEP:
            return self.canonical() == given.canonical()
        _check(code)
        return same.value

    __hash__ = None  # type: ignore[assignment]

    def copy(self) -> "Document":
        """A copy of the document."""
        copy = Document()
        _check(_lib.sj_clone(self._at, copy._at))
        return copy

    def __copy__(self) -> "Document":
        return self.copy()

    def __deepcopy__(self, memo: Dict[int, Any]) -> "Document":
        return self.copy()

    def __reduce__(self) -> Any:
        """By its text: JsonError past 1,024 levels, which could not be read back."""
        text = self.dumps()
        Document.parse(text)
        return Document.parse, (text,)

    def to_python(self) -> Any:
        """None, bools, ints, strs, lists and dicts."""
        return self.root.to_python()


def _other(document: Document, value: Any) -> Document:
    """The value as a document that is not this one: a call takes no handle twice."""
    return value if isinstance(value, Document) and value is not document else Document.of(value)


def _comparable(document: Document, value: Any) -> Optional[Document]:
    """The same, or None where there is no such document."""
    try:
        return _other(document, value)
    except (ValueError, TypeError):
        return None


def _old(call: _Call) -> Optional[Document]:
    """What the call puts into the handle for the value that was there."""
    old = Document.__new__(Document)
    old._hold_none()
    _check(call(old._at))
    return old if old._handle.is_open else None


class Value:
    """What stood at a pointer. After an edit find it again: `str`, `copy`, `==`, `[]` and `items` then read
    what stands there now, or raise JsonError; `len` and scalars are of before."""

    __slots__ = ("_doc", "path", "_found", "_text")

    def __init__(self, doc: Document, path: str, found: _Found) -> None:
        self._doc, self.path, self._found = doc, path, found
        self._text = _string(found.text, found.len) if found.kind == _STRING else ""

    def __len__(self) -> int:
        if self._found.kind not in (_ARRAY, _OBJECT):
            raise TypeError("no array and no object")
        return int(self._found.len)

    def __bool__(self) -> bool:
        if self._found.kind in (_ARRAY, _OBJECT):
            return len(self) > 0
        return bool(self.to_python())

    def __eq__(self, other: object) -> bool:
        """As documents compare."""
        return self.copy() == other

    __hash__ = None  # type: ignore[assignment]

    def __getitem__(self, key: Union[str, int]) -> "Value":
        kind = self._found.kind
        if kind == _ARRAY and isinstance(key, int):
            place = int(key) + len(self) if key < 0 else int(key)
            value = self._doc.pointer(self.path + _token(place)) if place >= 0 else None
            if value is None:
                raise IndexError(key)
            return value
        if kind == _OBJECT and isinstance(key, str):
            value = self._doc.pointer(self.path + _token(key))
            if value is None:
                raise KeyError(key)
            return value
        raise TypeError(f"nothing is found by {key!r} here")

    def get(self, key: Union[str, int], default: Any = None) -> Any:
        """The member of a key, or the item at a place; the default where there is none."""
        try:
            return self[key]
        except (LookupError, TypeError, UnicodeEncodeError):
            return default

    def __contains__(self, key: object) -> bool:
        if self._found.kind == _OBJECT:
            return isinstance(key, str) and self.get(key) is not None
        if self._found.kind == _ARRAY:
            return any(item == key for item in self)
        raise TypeError("no array and no object")

    def __iter__(self) -> Iterator[Any]:
        if self._found.kind == _OBJECT:
            return iter(self.keys())
        return iter(self.values())

    def _items(self) -> List["Value"]:
        if self._found.kind != _ARRAY:
            raise TypeError("no array")
        found, count, where = (_Found * len(self))(), ctypes.c_size_t(), _name(self.path)
        with self._doc._lock:
            _check(_lib.sj_items(self._doc._at, where, len(where), 0, found, len(found), ctypes.byref(count)))
            return [Value(self._doc, f"{self.path}/{place}", found[place]) for place in range(count.value)]

    def items(self) -> List[Tuple[str, "Value"]]:
        """The members of an object, in order."""
        if self._found.kind != _OBJECT:
            raise TypeError("no object")
        members, count, where = (_Member * len(self))(), ctypes.c_size_t(), _name(self.path)
        pairs = []
        with self._doc._lock:
            _check(
                _lib.sj_members(self._doc._at, where, len(where), 0, members, len(members), ctypes.byref(count))
            )
            for member in members[: count.value]:
                key = _string(member.key, member.key_len)
                pairs.append((key, Value(self._doc, self.path + _token(key), member.value)))
        return pairs

    def keys(self) -> List[str]:
        """The keys of an object, in order."""
        return [key for key, _ in self.items()]

    def values(self) -> List["Value"]:
        """The values of an object, or the items of an array, in order."""
        return self._items() if self._found.kind == _ARRAY else [value for _, value in self.items()]

    def _at(self, call: Callable[..., Any], *rest: Any) -> Any:
        where = _utf8(self.path)
        return call(self._doc._at, where, len(where), *rest)

    def dumps(self, pretty: bool = False) -> str:
        """The compact text, or the one with two spaces a level."""
        return _printed(lambda text: self._at(_lib.sj_print_at, text, pretty))

    def __str__(self) -> str:
        return self.dumps()

    def __repr__(self) -> str:
        return f"<Value at {self.path!r}>"

    def copy(self) -> Document:
        """A document of its own."""
        copy = Document()
        _check(self._at(_lib.sj_clone_at, copy._at))
        return copy

    def _scalar(self) -> Any:
        """None, a bool, an int or a str."""
        found = self._found
        if found.kind == _NULL:
            return None
        if found.kind == _BOOLEAN:
            return bool(found.is_true)
        if found.kind == _STRING:
            return self._text
        number = found.low | found.high << 64
        is_negative = found.is_signed and found.signed < 0 or found.kind == _I128 and found.high >= 2**63
        return number - 2**128 if is_negative else number

    def to_python(self) -> Any:
        """None, bools, ints, strs, lists and dicts. It does not call itself, whatever the depth."""
        whole: List[Any] = [None]
        waiting: List[Tuple[Value, Any, Any]] = [(self, whole, 0)]
        while waiting:
            value, around, place = waiting.pop()
            if value._found.kind == _ARRAY:
                items = value._items()
                around[place] = made = [None] * len(items)
                waiting.extend((item, made, number) for number, item in enumerate(items))
            elif value._found.kind == _OBJECT:
                members = value.items()
                around[place] = named = dict.fromkeys(key for key, _ in members)
                waiting.extend((member, named, key) for key, member in members)
            else:
                around[place] = value._scalar()
        return whole[0]
