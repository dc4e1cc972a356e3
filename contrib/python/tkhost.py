"""tkhost: a headless host for Tk 8.6 applications, over the library libtkhost by ctypes.

    with Host() as host:
        host.add("lamp", Rect(0, 0, 160, 60), "button .b -text Go; pack .b", total=1000)
        host.start()
        host.move(200, 80, 30)
        host.press(210)
        print(host.section(0).windows)

The shared library is looked for in the file that the environment's TKHOST_LIBRARY names, beside this file, in the lib of the prefix that this file was
installed under, and then as the system finds libraries. A host is one thread's at a time. docs/embedding.md tells what each call does."""
from __future__ import annotations

import ctypes, ctypes.util, enum, os, pathlib, re
from typing import NamedTuple, Optional, Sequence, Union

__all__ = ["Alias", "Fault", "Host", "Kind", "Line", "Number", "Rect", "Section", "Timer", "Turn", "Window", "play", "text"]


class Number(enum.IntEnum):
    """What a call answers that is refused."""
    OVERLAP = 34
    TIME_BACK = 35
    BAD_LINE = 36
    NO_APP = 37
    TOO_MANY_APPS = 38
    NAME_TAKEN = 39
    STARTED = 40
    ENDED = 41
    BROKEN = 42
    RECT_OVERLAP = 43
    NO_MEMORY = 64
    NO_HOST = 65
    HAS_HOST = 66
    TOO_SMALL = 67
    NOT_STARTED = 68


class Kind(enum.IntEnum):
    """What an alias does, by its configuration."""
    CONST = 0
    UPPER = 1
    TABLE = 2
    SUM = 3
    FAIL = 4


class Fault(Exception):
    """A refused call: its number, what that says, and of a faulty session the line."""

    def __init__(self, number: int, line: Optional[int] = None) -> None:
        self.number, self.line, self.text = number, line, text(number)
        super().__init__(f"{self.text} ({number})" + ("" if line is None else f" at line {line}"))


class Rect(NamedTuple):
    x: int
    y: int
    width: int
    height: int


class Alias(NamedTuple):
    name: str
    kind: Kind
    config: str


class Turn(NamedTuple):
    slot: int
    steps: int


class Line(NamedTuple):
    """What an application wrote, or an error of it, and when."""
    moment: int
    is_error: bool
    text: str


class Window(NamedTuple):
    """A window in its parent, or the main one on the screen; its place and size are in pixels."""
    path: str
    cls: str
    rect: Rect
    is_mapped: bool
    text: str


class Timer(NamedTuple):
    """A script that waits, under the name that `after` gave it: for its moment, or as an idle script (no moment)."""
    name: str
    due: Optional[int]
    script: str


_MEANT = {"n": "\n", "r": "\r", "s": " "}


def _plain(written: str) -> str:
    """A text as it was before backslashes, line feeds, carriage returns and, in paths, blanks were written otherwise."""
    return re.sub(r"\\(.)", lambda found: _MEANT.get(found[1], found[1]), written)


class Section(NamedTuple):
    """What an application shows."""
    name: str
    state: str
    steps_left: int
    lines: Sequence[Line]
    windows: Sequence[Window]
    timers: Sequence[Timer]
    raw: bytes

    def window(self, path: str) -> Optional[Window]:
        return next((it for it in self.windows if it.path == path), None)

    @staticmethod
    def parse(raw: bytes) -> "Section":
        """Reads a section of one application, as the host writes it."""
        head, *rest = raw.decode().removesuffix("\n").split("\n")
        _, name, state, left = head.split(" ")
        tree = rest.index("tree")
        timers = rest.index("timers", tree)
        lines = [it.split(" ", 2) for it in rest[:tree]]
        windows = [it.split(" ", 8) for it in rest[tree + 1:timers]]
        waiting = [it.split(" ", 3 if it.startswith("timer ") else 2) for it in rest[timers + 1:-1]]
        return Section(
            name, state, int(left),
            [Line(int(moment), kind == "err", _plain(said)) for kind, moment, said in lines],
            [Window(_plain(path), cls, Rect(int(x), int(y), int(width), int(height)), mapped == "1", _plain(shown[0]) if shown else "")
             for _, path, cls, x, y, width, height, mapped, *shown in windows],
            [Timer(name, int(due[0]) if due else None, _plain(script)) for _, name, *due, script in waiting], raw)


class _Turn(ctypes.Structure):
    _fields_ = [("slot", ctypes.c_size_t), ("steps", ctypes.c_uint64)]


def _library() -> ctypes.CDLL:
    here = pathlib.Path(__file__).resolve().parent
    named = os.environ.get("TKHOST_LIBRARY")
    places = [pathlib.Path(named)] if named else [here / "libtkhost.so", *(it / "lib" / "libtkhost.so" for it in here.parents)]
    path = next((str(it) for it in places if it.exists()), named or ctypes.util.find_library("tkhost"))
    if path is None:
        raise OSError("libtkhost.so isn't found: install it, or name it in TKHOST_LIBRARY")
    return ctypes.CDLL(path)


_lib = _library()
_HOST, _BYTES, _SIZE = ctypes.POINTER(ctypes.c_void_p), ctypes.c_char_p, ctypes.c_size_t
_U32, _U64, _TOLD = ctypes.c_uint32, ctypes.c_uint64, ctypes.POINTER(ctypes.c_size_t)
for _name, _types in {
    "play": [_BYTES, _SIZE, _U64, _BYTES, _SIZE, _TOLD], "new": [_HOST, _U64], "free": [_HOST], "alias": [_HOST, _BYTES, _SIZE, _U32, _BYTES, _SIZE],
    "add": [_HOST, _BYTES, _SIZE, _U32, _U32, _U32, _U32, _BYTES, _SIZE, _U64, _U64], "start": [_HOST], "move": [_HOST, _U64, _U32, _U32],
    "press": [_HOST, _U64, _U32], "release": [_HOST, _U64, _U32], "keydown": [_HOST, _U64, _BYTES, _SIZE], "keyup": [_HOST, _U64, _BYTES, _SIZE],
    "focus": [_HOST, _U64, _SIZE], "unfocus": [_HOST, _U64], "rect": [_HOST, _U64, _SIZE, _U32, _U32, _U32, _U32], "line": [_HOST, _BYTES, _SIZE],
    "advance": [_HOST, _U64], "end": [_HOST, _U64], "section": [_HOST, _SIZE, _BYTES, _SIZE, _TOLD], "turns": [_HOST, ctypes.POINTER(_Turn), _SIZE, _TOLD],
    "asker": [_HOST, _TOLD], "text": [_U32, _BYTES, _SIZE, _TOLD],
}.items():
    _call = getattr(_lib, f"tkhost_{_name}")
    _call.argtypes, _call.restype = _types, _U32


def _bytes(text_or_bytes: Union[str, bytes]) -> bytes:
    return text_or_bytes if isinstance(text_or_bytes, bytes) else text_or_bytes.encode()


def _within(value: int, bits: int) -> int:
    """ctypes cuts integers to their width without a word: what doesn't fit is refused here, as what is outside its range."""
    if not 0 <= value < 1 << bits:
        raise Fault(Number.BAD_LINE)
    return value


def text(number: int) -> str:
    """What a number says, in words."""
    buffer, told = ctypes.create_string_buffer(64), ctypes.c_size_t()
    _lib.tkhost_text(number, buffer, 64, told)
    return buffer.raw[:told.value].decode()


def play(session: Union[str, bytes], slice: int = 64) -> bytes:
    """Plays a whole session, and gives its sections, one after another. A faulty one is a Fault with its line."""
    given, capacity = _bytes(session), 1 << 16
    while True:
        buffer, told = ctypes.create_string_buffer(capacity), ctypes.c_size_t()
        answer = _lib.tkhost_play(given, len(given), _within(slice, 64), buffer, capacity, told)
        if answer == 0:
            return buffer.raw[:told.value]
        if answer != Number.TOO_SMALL:
            raise Fault(answer, told.value or None)
        capacity = told.value


class Host:
    """A host of up to sixteen applications. It is freed where the with statement that it stands in ends, or by close."""

    def __init__(self, slice: int = 64) -> None:
        self._handle = ctypes.c_void_p()
        self._call("new", _within(slice, 64))

    def __enter__(self) -> "Host":
        return self

    def __exit__(self, *_: object) -> None:
        self.close()

    def __del__(self) -> None:
        if getattr(self, "_handle", None):
            self.close()

    def _call(self, name: str, *args: object) -> None:
        answer = getattr(_lib, f"tkhost_{name}")(self._handle, *args)
        if answer:
            raise Fault(answer)

    def close(self) -> None:
        """Frees the host; each further call is refused (65), but another close, which does nothing."""
        if self._handle:
            self._call("free")

    def add(self, name: str, rect: Rect, script: Union[str, bytes], total: int, refill: int = 0, aliases: Sequence[Alias] = ()) -> None:
        """Adds an application in the next slot, with aliases of its own."""
        try:
            for alias in aliases:
                command, config = _bytes(alias.name), _bytes(alias.config)
                self._call("alias", command, len(command), _within(alias.kind, 32), config, len(config))
            given, code = _bytes(name), _bytes(script)
            self._call("add", given, len(given), *(_within(it, 32) for it in rect), code, len(code), _within(total, 64), _within(refill, 64))
        except Fault:
            # an application without a name is refused, and takes the aliases with it that wait already: the next one isn't to get them
            _lib.tkhost_add(self._handle, b"", 0, 0, 0, 0, 0, b"", 0, 0, 0)
            raise

    def start(self) -> None:
        self._call("start")

    def move(self, moment: int, x: int, y: int) -> None:
        self._call("move", _within(moment, 64), _within(x, 32), _within(y, 32))

    def press(self, moment: int, button: int = 1) -> None:
        self._call("press", _within(moment, 64), _within(button, 32))

    def release(self, moment: int, button: int = 1) -> None:
        self._call("release", _within(moment, 64), _within(button, 32))

    def keydown(self, moment: int, key: str) -> None:
        self._call("keydown", _within(moment, 64), _bytes(key), len(_bytes(key)))

    def keyup(self, moment: int, key: str) -> None:
        self._call("keyup", _within(moment, 64), _bytes(key), len(_bytes(key)))

    def focus(self, moment: int, slot: Optional[int]) -> None:
        """The application in a slot has the keys, or none has them."""
        if slot is None:
            self._call("unfocus", _within(moment, 64))
        else:
            self._call("focus", _within(moment, 64), _within(slot, 64))

    def rect(self, moment: int, slot: int, rect: Rect) -> None:
        """The application in a slot has another rectangle."""
        self._call("rect", _within(moment, 64), _within(slot, 64), *(_within(it, 32) for it in rect))

    def line(self, line: Union[str, bytes]) -> None:
        """A line of a session, as it stands behind `events`."""
        given = _bytes(line)
        self._call("line", given, len(given))

    def advance(self, moment: int) -> None:
        self._call("advance", _within(moment, 64))

    def end(self, moment: int) -> None:
        self._call("end", _within(moment, 64))

    def section_bytes(self, slot: int) -> bytes:
        """The section of the application in a slot, as the host writes it."""
        capacity = 1 << 12
        while True:
            buffer, told = ctypes.create_string_buffer(capacity), ctypes.c_size_t()
            answer = _lib.tkhost_section(self._handle, _within(slot, 64), buffer, capacity, told)
            if answer == 0:
                return buffer.raw[:told.value]
            if answer != Number.TOO_SMALL:
                raise Fault(answer)
            capacity = told.value

    def section(self, slot: int) -> Section:
        return Section.parse(self.section_bytes(slot))

    def turns(self) -> Sequence[Turn]:
        """The turns that took steps in the last call that ran applications."""
        capacity = 64
        while True:
            buffer, told = (_Turn * capacity)(), ctypes.c_size_t()
            answer = _lib.tkhost_turns(self._handle, buffer, capacity, told)
            if answer == 0:
                return [Turn(it.slot, it.steps) for it in buffer[:told.value]]
            if answer != Number.TOO_SMALL:
                raise Fault(answer)
            capacity = told.value

    def asker(self) -> Optional[int]:
        """The slot of the application that asked for the memory that was refused, once the host is broken."""
        slot = ctypes.c_size_t()
        answer = _lib.tkhost_asker(self._handle, slot)
        if answer == Number.NO_APP:
            return None
        if answer:
            raise Fault(answer)
        return slot.value
