"""Written by scripts/boundary from include/gearcard.h: change that, and run it."""

from __future__ import annotations

from ctypes import Structure, c_bool, c_int32, c_int64, c_size_t, c_uint16, c_uint32, c_uint8, c_void_p

LONGEST = 16384
CYCLE = 1801

#: Places of the vehicle's lists.
GEARS, POINTS = 10, 64


class Vehicle(Structure):
    _fields_ = [
        ("ng", c_uint16),
        ("ratio", c_uint16 * 10),
        ("idle", c_uint16),
        ("rated", c_uint16),
        ("nmax", c_uint16),
        ("f0", c_uint16),
        ("f1", c_int32),
        ("f2", c_uint16),
        ("tm", c_uint16),
        ("margin", c_uint16),
        ("points", c_uint16),
        ("n", c_uint16 * 64),
        ("p", c_uint16 * 64),
        ("m", c_uint16 * 64),
        ("profile", c_uint16),
    ]


class Verdict(Structure):
    _fields_ = [
        ("number", c_uint32),
        ("place", c_size_t),
    ]


class Job(Structure):
    _fields_ = [
        ("verdict", Verdict),
        ("version", c_uint16),
        ("vehicle", Vehicle),
        ("count", c_size_t),
    ]


class Written(Structure):
    _fields_ = [
        ("verdict", Verdict),
        ("length", c_size_t),
    ]


class Summary(Structure):
    _fields_ = [
        ("standing", c_uint16),
        ("gears", c_uint16 * 10),
        ("changes", c_uint16),
    ]


class Counted(Structure):
    _fields_ = [
        ("verdict", Verdict),
        ("summary", Summary),
    ]


class Gear(Structure):
    _fields_ = [
        ("q", c_int64),
        ("w", c_int64),
        ("engine", c_uint32),
        ("minimum", c_uint32),
        ("rule", c_uint8),
        ("allowed", c_bool),
        ("over_minimum", c_bool),
        ("under_nmax", c_bool),
        ("fits", c_bool),
        ("enough", c_bool),
    ]


class Reasons(Structure):
    _fields_ = [
        ("about", c_size_t),
        ("first", c_size_t),
        ("last", c_size_t),
        ("required", c_int64),
        ("gears", Gear * 10),
        ("kind", c_uint8),
        ("role", c_uint8),
        ("held", c_uint8),
        ("choice", c_uint8),
        ("sentence", c_uint8),
        ("after_a", c_uint8),
        ("after_b", c_uint8),
        ("after_c", c_uint8),
        ("floor", c_uint8),
        ("ceiling", c_uint8),
        ("clutch", c_bool),
        ("clutch_reason", c_uint8),
        ("byte", c_uint8),
    ]


class Why(Structure):
    _fields_ = [
        ("verdict", Verdict),
        ("reasons", Reasons),
    ]


class Part(Structure):
    _fields_ = [
        ("first", c_size_t),
        ("count", c_size_t),
    ]


class Coefficients(Structure):
    _fields_ = [
        ("verdict", Verdict),
        ("f0", c_uint16),
        ("f1", c_int32),
        ("f2", c_uint16),
        ("tm", c_uint16),
    ]


#: What each function answers, and what it takes; a list is its address and its length.
FUNCTIONS: dict[str, tuple[type[Structure], tuple[type, ...]]] = {
    "read": (
        Job,
        (c_void_p, c_size_t, c_void_p, c_size_t, c_void_p, c_size_t),
    ),
    "write": (
        Written,
        (c_uint16, Vehicle, c_void_p, c_size_t, c_void_p, c_size_t, c_void_p, c_size_t),
    ),
    "work": (
        Verdict,
        (Vehicle, c_void_p, c_size_t, c_void_p, c_size_t, c_void_p, c_size_t),
    ),
    "summary_of": (
        Counted,
        (c_void_p, c_size_t, c_void_p, c_size_t),
    ),
    "hold": (
        Counted,
        (Vehicle, c_void_p, c_size_t, c_void_p, c_size_t, c_void_p, c_size_t, c_size_t, c_uint8, Summary),
    ),
    "release": (
        Counted,
        (Vehicle, c_void_p, c_size_t, c_void_p, c_size_t, c_void_p, c_size_t, c_size_t, Summary),
    ),
    "mend": (
        Counted,
        (Vehicle, c_void_p, c_size_t, c_void_p, c_size_t, c_void_p, c_size_t, c_size_t, c_uint16, Summary),
    ),
    "why": (
        Why,
        (Vehicle, c_void_p, c_size_t, c_void_p, c_size_t, c_size_t),
    ),
    "cycle": (
        Verdict,
        (c_uint32, c_void_p, c_size_t),
    ),
    "cycle_part": (
        Part,
        (c_uint32, c_size_t),
    ),
    "downscale": (
        Verdict,
        (c_uint32, c_void_p, c_size_t),
    ),
    "export": (
        Coefficients,
        (c_void_p, c_size_t),
    ),
}
