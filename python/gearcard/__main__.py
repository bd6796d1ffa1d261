"""`python3 -m gearcard WORD ..`, which is `./gearcard WORD ..`."""

import os
import sys

if sys.version_info < (3, 11):
    print("gearcard: Python 3.11 or later is needed", file=sys.stderr)
    sys.exit(2)

from .interrupts import prepare

prepare()

# A standard stream that is closed leaves its number to the next file that is opened, which could be a job.
for number in range(3):
    try:
        os.fstat(number)
    except OSError:
        os.open(os.devnull, os.O_RDWR)

from .cli import main  # noqa: E402  (only now: what it loads opens files)

sys.exit(main(sys.argv[1:]))
