"""The command `gearcard` of an installed package: as `python3 -m gearcard`."""

import runpy


def main() -> None:
    runpy.run_module("gearcard", run_name="__main__", alter_sys=True)
