"""Tombezary from Python, by ctypes over c/out/libtombezary.so. include/tombezary.h says what each call does.

A call that doesn't answer 0 raises Refused, whose `code` is the name of the code.
"""
import ctypes
import os
from ctypes import POINTER, Structure, byref, c_char_p, c_int, c_int32, c_int64, c_size_t, c_uint8, c_uint16, c_uint32, c_uint64, c_void_p

PATH = os.path.join(os.path.dirname(os.path.abspath(__file__)), "..", "c", "out", "libtombezary.so")


class Handle(Structure):
    _fields_ = [("at", c_void_p), ("is_open", c_uint64), ("stamp", c_uint64)]


class Number(Structure):
    _fields_ = [("ring", c_uint16), ("k", c_uint64)]


class Sqe(Structure):
    _fields_ = [("opcode", c_uint8), ("flags", c_uint8), ("ioprio", c_uint16), ("fd", c_int32), ("off", c_uint64),
                ("addr", c_uint64), ("len", c_uint32), ("word", c_uint32), ("user_data", c_uint64), ("buf_index", c_uint16),
                ("personality", c_uint16), ("splice_fd_in", c_int32), ("zero", c_uint64 * 2)]


class Cqe(Structure):
    _fields_ = [("user_data", c_uint64), ("res", c_int32), ("flags", c_uint32)]


class _Shape(Structure):
    _fields_ = [("rings", POINTER(c_uint32)), ("ring_count", c_size_t), ("pipes", POINTER(c_uint32)), ("pipe_count", c_size_t),
                ("workers", c_uint32)]


class _Turn(Structure):
    _fields_ = [("ready", POINTER(Number)), ("ready_room", c_size_t), ("ready_count", c_size_t),
                ("answered", POINTER(Number)), ("answered_room", c_size_t), ("answered_count", c_size_t), ("moved", c_int)]


class _Line(Structure):
    _fields_ = [("number", Number), ("cqe", Cqe), ("length", c_size_t), ("is_cut", c_int)]


PHASES = ("unborn", "held", "ready", "running", "armed", "done", "reaped")
DRAIN, LINK, HARDLINK = 2, 4, 8
NOP, POLL_ADD, TIMEOUT, TIMEOUT_REMOVE, ASYNC_CANCEL, LINK_TIMEOUT, CLOSE, READ, WRITE, SPLICE = 0, 6, 11, 12, 14, 15, 19, 22, 23, 30


class Refused(Exception):
    def __init__(self, code):
        super().__init__(code)
        self.code = code


_lib = ctypes.CDLL(PATH)
_lib.tz_name.restype = c_char_p
_H = POINTER(Handle)
for _name, _args in {
    "tz_new": [POINTER(_Shape), _H, _H, _H],
    "tz_submit": [_H, POINTER(Sqe), c_size_t, c_char_p, c_size_t, POINTER(c_uint64)],
    "tz_poll": [_H, POINTER(_Turn)],
    "tz_tick": [_H, c_uint32],
    "tz_work": [_H, Number, POINTER(Cqe), POINTER(c_size_t)],
    "tz_took": [_H, POINTER(Number), c_size_t, POINTER(c_size_t)],
    "tz_look": [_H, Number, POINTER(c_uint32), POINTER(c_int64)],
    "tz_reap": [_H, Number, POINTER(Cqe), POINTER(c_size_t)],
    "tz_bytes": [_H, c_void_p, c_size_t, POINTER(c_size_t)],
    "tz_finish": [_H, _H, c_size_t, _H, c_size_t, POINTER(c_size_t)],
    "tz_report": [_H, c_size_t, POINTER(_Line)],
    "tz_report_bytes": [_H, c_size_t, c_void_p, c_size_t, POINTER(c_size_t)],
    "tz_close": [_H],
}.items():
    getattr(_lib, _name).argtypes = _args
    getattr(_lib, _name).restype = c_uint32


def _must(code):
    if code:
        raise Refused(_lib.tz_name(code).decode())


def sqe(opcode, fd=-1, off=0, addr=0, len=0, word=0, user_data=0, flags=0, splice_fd_in=0):
    """An entry, by the fields of struct io_uring_sqe."""
    return Sqe(opcode=opcode, fd=fd, off=off, addr=addr, len=len, word=word, user_data=user_data, flags=flags,
               splice_fd_in=splice_fd_in)


class Board:
    """A board, all of whose passes one thread holds."""

    def __init__(self, rings, pipes=(), workers=1):
        self.rings, self.count = len(rings), workers
        self.poller, self.clients, self.workers = Handle(), (Handle * len(rings))(), (Handle * workers)()
        cells, capacities = (c_uint32 * len(rings))(*rings), (c_uint32 * len(pipes))(*pipes)
        shape = _Shape(cells, len(rings), capacities, len(pipes), workers)
        _must(_lib.tz_new(byref(shape), byref(self.poller), self.clients, self.workers))
        room = max(2, sum(rings))
        self._ready, self._answered = (Number * room)(), (Number * room)()
        self._turn = _Turn(ready=self._ready, ready_room=room, answered=self._answered, answered_room=room)

    def submit(self, ring, entries, data=b""):
        """Submits a batch; `data` has the buffers one after another. The number of the first entry."""
        first = c_uint64()
        _must(_lib.tz_submit(byref(self.clients[ring]), (Sqe * len(entries))(*entries), len(entries), data, len(data), byref(first)))
        return first.value

    def poll(self):
        """One turn: the requests that are to be run, those that the poller answered, and whether it did something."""
        turn = self._turn
        _must(_lib.tz_poll(byref(self.poller), byref(turn)))
        return ([(n.ring, n.k) for n in self._ready[:turn.ready_count]],
                [(n.ring, n.k) for n in self._answered[:turn.answered_count]], bool(turn.moved))

    def tick(self, to):
        _must(_lib.tz_tick(byref(self.poller), to))

    def work(self, worker, number):
        """Runs a request: its reply, and which other requests that ended."""
        cqe, took = Cqe(), c_size_t()
        _must(_lib.tz_work(byref(self.workers[worker]), Number(*number), byref(cqe), byref(took)))
        return cqe.res, self._took(worker, took.value)

    def _took(self, worker, count):
        if not count:
            return []
        numbers, written = (Number * count)(), c_size_t()
        _must(_lib.tz_took(byref(self.workers[worker]), numbers, count, byref(written)))
        return [(n.ring, n.k) for n in numbers]

    def look(self, number):
        """Where a request stands, as the poller finds it: the phase, and its deadline or its reply."""
        phase, value = c_uint32(), c_int64()
        _must(_lib.tz_look(byref(self.poller), Number(*number), byref(phase), byref(value)))
        return PHASES[phase.value], value.value

    def reap(self, number):
        """Takes a completion: user_data, reply and buffer."""
        cqe, length = Cqe(), c_size_t()
        client = byref(self.clients[number[0]])
        _must(_lib.tz_reap(client, Number(*number), byref(cqe), byref(length)))
        data = ctypes.create_string_buffer(max(1, length.value))
        _must(_lib.tz_bytes(client, data, length.value, byref(length)))
        return cqe.user_data, cqe.res, data.raw[:length.value]

    def finish(self):
        """Ends the board: the requests that were not reaped, as number, user_data, reply, buffer, and whether the end cut it."""
        count = c_size_t()
        _must(_lib.tz_finish(byref(self.poller), self.clients, self.rings, self.workers, self.count, byref(count)))
        lines = [self._line(i) for i in range(count.value)]
        _must(_lib.tz_close(byref(self.poller)))
        return lines

    def _line(self, i):
        line, length = _Line(), c_size_t()
        _must(_lib.tz_report(byref(self.poller), i, byref(line)))
        data = ctypes.create_string_buffer(max(1, line.length))
        _must(_lib.tz_report_bytes(byref(self.poller), i, data, line.length, byref(length)))
        return (line.number.ring, line.number.k), line.cqe.user_data, line.cqe.res, data.raw[:length.value], bool(line.is_cut)
