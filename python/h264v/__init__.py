"""A proved verifier and decoder of H.264 byte streams, by ctypes over the installed libh264v.

    import h264v

    verdict = h264v.check(data)                     # a verdict on bytes
    print(h264v.explain(data)["cause"])             # the verdict with its place and its cause, as a dict
    with h264v.Decoder("clip.264") as decoder:      # a path, bytes, an open file, or an iterable of bytes
        for frame in decoder:                       # frames in the order of output
            use(frame.y, frame.cb, frame.cr)        # memoryviews of rows and columns, which numpy takes without a copy
    decoder.verdict                                 # the verdict on what was read

    with h264v.Decoder() as decoder:                # NAL units without start codes, as MP4 has them
        for unit in units:
            decoder.send_unit(unit)
            for frame in decoder:                   # the frames that wait
                use(frame.y, frame.cb, frame.cr)
        print(decoder.finish())                     # the verdict; frames may still wait

The library is looked for where H264V_LIBRARY says, then where the system's loader looks, then in ~/.local/lib.
"""
import ctypes
import ctypes.util
import enum
import json
import os
from fractions import Fraction
from typing import NamedTuple, Optional

__all__ = ["Decoder", "Frame", "Info", "Kind", "Mode", "Target", "Verdict", "check", "explain", "library_version"]

#: The version of this module, which is that of the library that it was written for.
__version__ = "0.1.0"

#: How many bytes a decoder reads of a file at a time: few, so that few frames wait at once.
PIECE = 1 << 12


class Mode(enum.IntEnum):
    """How far a stream is judged."""

    UNITS = 0  #: the byte stream, its units, and the parameter sets
    HEADERS = 1  #: these, and slice headers
    FULL = 2  #: these, and slice data, of which the frames are made
    VERDICT = 3  #: these, and slice data, without making frames


class Target(enum.IntEnum):
    """The decoder that a stream has to suit."""

    BASELINE = 0  #: Constrained Baseline, levels 1 to 5.2
    MAIN_IP = 1  #: the progressive streams of I and P slices in CAVLC of the Main profile


class Kind(enum.IntEnum):
    """What is said of a stream."""

    YES = 0  #: it is legal
    NO = 1  #: it breaks a rule
    OUTSIDE = 2  #: it has something that is not judged, and nothing before it breaks a rule


class Verdict(NamedTuple):
    """What is said of a stream. Numbers that the kind does not have are 0, and texts are empty."""

    kind: Kind
    #: NO and OUTSIDE: the bit of what was sent where it stands, from 0, the highest bit of a byte first
    bit: int
    #: YES: the units, the coded pictures, and the frames
    units: int
    pictures: int
    frames: int
    #: NO: the rule's name. OUTSIDE: the feature's name
    label: str
    #: NO: the clause of the standard that has the rule
    clause: str


class Frame(NamedTuple):
    """What is shown of a frame. Each plane is a memoryview of unsigned bytes in rows and columns."""

    width: int
    height: int
    #: the picture order count
    count: int
    #: the samples: the rows of Y, then of Cb, then of Cr
    samples: memoryview
    y: memoryview
    cb: memoryview
    cr: memoryview


class Info(NamedTuple):
    """What the sequence parameter set says that the last slice uses. Sizes are in luma samples."""

    profile_idc: int
    #: ten times the level; level 1b is 9, or 11 where is_level_1b is True
    level_idc: int
    is_level_1b: bool
    #: what is shown
    width: int
    height: int
    #: before cropping
    coded_width: int
    coded_height: int
    #: what cropping cuts off: left, right, top, bottom
    cropping: tuple
    #: the sample aspect ratio as (width, height); None where it is not specified
    aspect_ratio: Optional[tuple]
    #: the frame rate; None where it is not given
    frame_rate: Optional[Fraction]
    is_fixed_rate: bool


class _Verdict(ctypes.Structure):
    _fields_ = [
        *((name, ctypes.c_uint64) for name in ("bit", "units", "pictures", "frames")),
        ("kind", ctypes.c_uint32),
        ("label", ctypes.c_char * 24),
        ("clause", ctypes.c_char * 8),
    ]


class _Frame(ctypes.Structure):
    _fields_ = [
        ("samples", ctypes.c_void_p),
        ("size", ctypes.c_size_t),
        ("width", ctypes.c_uint32),
        ("height", ctypes.c_uint32),
        ("count", ctypes.c_int32),
    ]


class _Info(ctypes.Structure):
    _fields_ = [
        *((name, ctypes.c_uint64) for name in ("rate_frames", "rate_seconds")),
        *(
            (name, ctypes.c_uint32)
            for name in (
                "profile_idc level_idc is_level_1b width height coded_width coded_height crop_left crop_right crop_top crop_bottom "
                "sar_width sar_height is_fixed_rate"
            ).split()
        ),
    ]


_MEMORY = 3
_OPENED = 0
_TOLD = 1
_FRAME = 1
_FELL = 1
_NO_UNIT = 2


def _load():
    home = os.path.expanduser("~/.local/lib/libh264v.so.0")
    names = [os.environ.get("H264V_LIBRARY"), "libh264v.so.0", ctypes.util.find_library("h264v"), home]
    causes = []
    for name in filter(None, names):
        try:
            return ctypes.CDLL(name)
        except OSError as error:
            causes.append(str(error))
    raise ImportError("libh264v is not installed: " + "; ".join(causes))


def _declared(library):
    handle, size, number, bytes_at = ctypes.c_void_p, ctypes.c_size_t, ctypes.c_uint32, ctypes.c_void_p
    verdict, frame, info = ctypes.POINTER(_Verdict), ctypes.POINTER(_Frame), ctypes.POINTER(_Info)
    for name, answer, arguments in (
        ("h264v_version", number, []),
        ("h264v_open", ctypes.c_int32, [number, number, ctypes.POINTER(handle)]),
        ("h264v_open_explaining", ctypes.c_int32, [number, number, ctypes.POINTER(handle)]),
        ("h264v_explain", size, [handle, ctypes.c_char_p, size]),
        ("h264v_stream", ctypes.c_int32, [handle, info]),
        ("h264v_send", ctypes.c_int32, [handle, bytes_at, size, verdict]),
        ("h264v_send_unit", ctypes.c_int32, [handle, bytes_at, size, verdict]),
        ("h264v_receive", ctypes.c_int32, [handle, frame]),
        ("h264v_finish", None, [handle, verdict]),
        ("h264v_close", None, [handle]),
        ("h264v_check", None, [bytes_at, size, number, number, verdict]),
    ):
        try:
            function = getattr(library, name)
        except AttributeError:
            raise ImportError(f"libh264v is older than this module: it has no {name}") from None
        function.restype, function.argtypes = answer, arguments
    return library


_library = _declared(_load())


def library_version():
    """The version of the library, as `__version__` has that of the module."""
    number = _library.h264v_version()
    return f"{number >> 16}.{number >> 8 & 255}.{number & 255}"


def _told(verdict):
    """The verdict of the library's; MemoryError where there is none for want of memory."""
    if verdict.kind == _MEMORY:
        raise MemoryError("libh264v: memory was refused")
    return Verdict(
        Kind(verdict.kind),
        verdict.bit,
        verdict.units,
        verdict.pictures,
        verdict.frames,
        verdict.label.decode("ascii"),
        verdict.clause.decode("ascii"),
    )


def _bytes_of(data):
    """Bytes that stay where they are, as ctypes passes them."""
    if not isinstance(data, bytes):
        data = bytes(memoryview(data))  # and a number is none
    return ctypes.cast(ctypes.c_char_p(data), ctypes.c_void_p), len(data), data


def check(data, mode=Mode.FULL, target=Target.BASELINE):
    """The verdict on a whole stream, a bytes-like object."""
    at, size, kept = _bytes_of(data)
    verdict = _Verdict()
    _library.h264v_check(at, size, Mode(mode), Target(target), verdict)
    del kept
    return _told(verdict)


def explain(data, mode=Mode.FULL, target=Target.BASELINE):
    """The verdict on a whole stream, a bytes-like object, as a dict: its place, what was found there, what is allowed and what usually causes it.

    docs/OUTPUT.md names the fields: those of JSON of kind `verdict`, without `file`."""
    with Decoder(data, mode, target, explain=True) as decoder:
        for _ in decoder:
            pass
        return decoder.explain()


def _file_pieces(path):
    """The bytes of the file of a name, in pieces."""
    with open(path, "rb") as file:
        yield from iter(lambda: file.read(PIECE), b"")


def _pieces(source):
    """The bytes of a file by its path, of a bytes-like object, of a file that is open for reading, or of an iterable of bytes, in pieces."""
    if isinstance(source, (str, os.PathLike)):
        return _file_pieces(source)
    if isinstance(source, (bytes, bytearray, memoryview)):
        view = memoryview(source).cast("B")
        return (view[at : at + PIECE] for at in range(0, len(view), PIECE))
    if hasattr(source, "read"):
        return iter(lambda: source.read(PIECE), b"")
    return iter(source)


class Decoder:
    """An iterator over the frames of a stream, in the order of output.

    The source is a path (str or os.PathLike), a bytes-like object, a file that is open for reading, or an iterable of bytes. It is
    read as frames are asked for. Once the iterator is at its end, `verdict` is the verdict on what was read; before that it is None.

    Without a source the units are sent by `send_unit`, and the iterator has the frames that wait: it ends where none does, and can be
    used again after the next unit. `finish` says that there are no more units.

    Each frame has its own bytes, of which `numpy.asarray(frame.y)` makes no further copy. With lend=True it has the library's: they
    stay until the next frame is asked for or the decoder is closed, and no longer, whoever still holds a view of them.

    With explain=True `explain` says where a verdict stands and what was found there. That takes up to 30 % more time.

    Raises OSError where a path cannot be opened or read, ValueError for a mode or a target that is none, TypeError for a source or a piece that is none, and MemoryError where memory
    is refused.
    """

    #: The library's decoder; None where there is none, or none any more.
    _handle = None

    def __init__(self, source=None, mode=Mode.FULL, target=Target.BASELINE, lend=False, explain=False):
        self.verdict = None
        self._pieces = None if source is None else _pieces(source)
        self._lend = lend
        handle = ctypes.c_void_p()
        make = _library.h264v_open_explaining if explain else _library.h264v_open
        if make(Mode(mode), Target(target), handle) != _OPENED:
            raise MemoryError("libh264v: memory was refused")
        self._handle = handle

    def __iter__(self):
        return self

    def __next__(self):
        while True:
            if self._handle is None:
                raise StopIteration
            frame = _Frame()
            if _library.h264v_receive(self._handle, frame) == _FRAME:
                return self._frame(frame)
            if self.verdict is not None or self._pieces is None:
                raise StopIteration
            self._send()

    def send_unit(self, unit):
        """Sends a NAL unit without a start code, a bytes-like object. The verdict, where it stands then; else None.

        Places in a verdict count the bytes that were sent, and no start codes. ValueError: no NAL unit has these bytes, and nothing was
        sent. There are none, or 00 00 00 or 00 00 01 stands in them, or the last one is 00. ValueError too once the decoder is closed."""
        self._check_open()
        at, size, kept = _bytes_of(unit)
        verdict = _Verdict()
        answer = _library.h264v_send_unit(self._handle, at, size, verdict)
        del kept
        if answer == _NO_UNIT:
            raise ValueError("no NAL unit has these bytes")
        if answer == _MEMORY:
            raise MemoryError("libh264v: memory was refused")
        if answer == _FELL:
            self.verdict = _told(verdict)
        return self.verdict

    def finish(self):
        """Says that the stream ends here: the verdict on all that was sent. Frames may then wait."""
        self._check_open()
        verdict = _Verdict()
        _library.h264v_finish(self._handle, verdict)
        self.verdict = _told(verdict)
        return self.verdict

    def _check_open(self):
        if self._handle is None:
            raise ValueError("the decoder is closed")

    def _send(self):
        """Sends the next piece, or the end."""
        piece = next(self._pieces, None)
        if piece is None:
            self.finish()
            return
        verdict = _Verdict()
        at, size, kept = _bytes_of(piece)
        if _library.h264v_send(self._handle, at, size, verdict) == _FELL:
            self.verdict = _told(verdict)
        del kept

    def _frame(self, frame):
        array = (ctypes.c_uint8 * frame.size).from_address(frame.samples)
        samples = memoryview(array).cast("B").toreadonly() if self._lend else memoryview(bytes(array))
        width, height = frame.width, frame.height
        luma, chroma = width * height, (width // 2) * (height // 2)
        plane = lambda at, size, shape: samples[at : at + size].cast("B", shape)
        return Frame(
            width,
            height,
            frame.count,
            samples,
            plane(0, luma, (height, width)),
            plane(luma, chroma, (height // 2, width // 2)),
            plane(luma + chroma, chroma, (height // 2, width // 2)),
        )

    @property
    def info(self):
        """What the stream is (Info), once a slice was read; None before that, and once the decoder is closed."""
        info = _Info()
        if self._handle is None or _library.h264v_stream(self._handle, info) != _TOLD:
            return None
        return Info(
            info.profile_idc,
            info.level_idc,
            bool(info.is_level_1b),
            info.width,
            info.height,
            info.coded_width,
            info.coded_height,
            (info.crop_left, info.crop_right, info.crop_top, info.crop_bottom),
            (info.sar_width, info.sar_height) if info.sar_height else None,
            Fraction(info.rate_frames, info.rate_seconds) if info.rate_seconds else None,
            bool(info.is_fixed_rate),
        )

    def explain(self):
        """The verdict as a dict, as `h264v.explain` gives it. None where it does not stand yet, and once the decoder is closed."""
        if self._handle is None or self.verdict is None:
            return None
        size = _library.h264v_explain(self._handle, b"", 0)
        text = ctypes.create_string_buffer(size + 1)
        if size == 0 or _library.h264v_explain(self._handle, text, size + 1) != size:
            raise MemoryError("libh264v: memory was refused")
        return json.loads(text.value.decode("utf-8"))

    def close(self):
        """Lets go of the decoder and of the frame that it lent. Further calls do nothing."""
        if self._handle is not None:
            _library.h264v_close(self._handle)
            self._handle = None

    def __enter__(self):
        return self

    def __exit__(self, *_):
        self.close()

    def __del__(self):
        self.close()
