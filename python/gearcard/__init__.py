"""The gear card from Python: the proved functions of include/gearcard.h, over plain lists, arrays and buffers.

    from gearcard import read, work, hold

    job = read(open("examples/class-3.job", "rb").read())
    card = work(job.vehicle, job.speeds, job.holds)
    hold(job.vehicle, job.speeds, job.holds, card, second=60, gear=3)

Only Python's standard library is used. In a checkout the first call proves and builds the library where that has not been done; an installed package has it.
"""

from .calls import (
    Coefficients,
    Gear,
    Job,
    Summary,
    Why,
    clutch_down,
    cycle,
    downscale,
    export,
    gear_of,
    hold,
    mend,
    part_of,
    read,
    release,
    summary,
    why,
    work,
    write,
)
from .edits import Hold, Mend, RefusedEdit, Release, edit
from .engine import VERSION as __version__, Failure
from .refusals import Refused
from .vehicle import Point, Vehicle

__all__ = [
    "Coefficients",
    "Failure",
    "Gear",
    "Hold",
    "Job",
    "Mend",
    "Point",
    "Refused",
    "RefusedEdit",
    "Release",
    "Summary",
    "Vehicle",
    "Why",
    "__version__",
    "clutch_down",
    "cycle",
    "downscale",
    "edit",
    "export",
    "gear_of",
    "hold",
    "mend",
    "part_of",
    "read",
    "release",
    "summary",
    "why",
    "work",
    "write",
]
