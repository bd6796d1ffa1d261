"""Jobs from a seed, and a job's bytes written without the engine: what is read and written is held against these."""

from __future__ import annotations

import random
from array import array

from gearcard import Job, Vehicle

CAR_Z = Vehicle(
    ratios=(12000, 7000, 4500, 3500, 2800),
    idle=800,
    rated=5600,
    nmax=6000,
    f0=1000,
    f1=0,
    f2=4000,
    tm=1500,
    margin=10,
    curve=((800, 100), (1800, 300), (2800, 500), (3800, 700), (4800, 850), (5600, 900), (6000, 880)),
)


def vehicle(r: random.Random, version: int = 1) -> Vehicle:
    """A vehicle within document 01's bounds that a job of that version carries, whose gears leave no speed between them up to 200 km/h."""
    ng = r.randint(2, 10)
    top = r.randint(1500, 2500)
    ratios = [top]
    while len(ratios) < ng:
        ratios.append(ratios[-1] + r.randint(1, ratios[-1] // 2))
    idle = r.randint(300, 1200)
    rated = r.randint(5000, 12000)
    nmax = r.randint(rated, 15000)
    n = [r.randint(max(1, idle - 1000), idle)]
    points = r.randint(2, 64)
    while len(n) < points - 1 and n[-1] + 1000 < nmax:
        n.append(n[-1] + r.randint(1, 1000))
    while n[-1] < nmax:
        n.append(n[-1] + r.randint(500, 1000))
    curve = tuple((each, r.randint(0, 5000), r.randint(0, 40) if version > 1 else 0) for each in n[:64])
    loads = (r.randint(0, 10000), r.randint(-5000, 5000), r.randint(0, 20000), r.randint(400, 4000), r.randint(0, 50))
    return Vehicle(tuple(reversed(ratios)), idle, rated, nmax, *loads, curve, r.randint(0, 1) if version > 2 and ng > 2 else 0)


def speeds(r: random.Random, count: int) -> array[int]:
    """A trace that passes the checks: at rest at both ends, steps of at most 15 km/h."""
    trace, speed = [0], 0
    while len(trace) < count:
        left = count - 1 - len(trace)
        speed = max(0, min(speed + r.randint(-150, 150), 2000, 150 * left))
        trace.append(speed)
    trace[-1] = 0
    return array("H", trace)


def job(seed: int) -> Job:
    """A job of that seed; some of its moving seconds are held, in the top gear, which the engine can always turn."""
    r = random.Random(seed)
    version = 1 + seed % 3
    car, trace = vehicle(r, version), speeds(r, r.choice((1, 2, 5, 60, 400)))
    holds = bytearray(len(trace))
    for second, speed in enumerate(trace):
        if speed >= 10 and r.random() < 0.05:
            holds[second] = len(car.ratios)
    return Job(car, trace, holds, version)


def group(value: int) -> bytes:
    """Seven bits at a time, least significant first, the top bit set when more follow."""
    out = bytearray()
    while value >= 128:
        out.append(value % 128 + 128)
        value //= 128
    out.append(value)
    return bytes(out)


def encoded(job: Job) -> bytes:
    """A job's bytes, as document 01 lists them."""
    car = job.vehicle
    numbers = [job.version, *([car.profile] if job.version > 2 else []), len(car.ratios), *car.ratios]
    numbers += [car.idle, car.rated, car.nmax, car.f0, car.f1 + 5000, car.f2, car.tm, car.margin]
    numbers += [len(car.curve), *(number for point in car.curve for number in (point if job.version > 1 else point[:2]))]
    numbers += [len(job.speeds), *job.speeds]
    held = [(second, gear) for second, gear in enumerate(job.holds) if gear]
    numbers += [len(held), *(number for hold in held for number in hold)]
    return b"".join(map(group, numbers))
