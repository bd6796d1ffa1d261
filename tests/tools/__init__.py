"""Tests of the tools for people; `tests/tools/run` runs them all."""
