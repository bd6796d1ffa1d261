"""From Python without the package: the built-in cycle by ctypes. gearcard.dll stands beside it. The wheel has all functions."""
import ctypes
import pathlib


class Verdict(ctypes.Structure):
    _fields_ = [("number", ctypes.c_uint32), ("place", ctypes.c_size_t)]


library = ctypes.CDLL(str(pathlib.Path(__file__).resolve().with_name("gearcard.dll")))
library.gearcard_cycle.restype = Verdict
speeds = (ctypes.c_uint16 * 1801)()
refused = library.gearcard_cycle(ctypes.c_uint32(0), speeds, ctypes.c_size_t(len(speeds))).number
print(f"refused {refused}, second 20: {speeds[20] / 10} km/h")
