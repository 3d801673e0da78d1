"""The code shared by the programs of bridges/, in four packages: `srcp`, `stations`, `page` and `plan`. Beside these:
how a program begins and ends, the limits, the release, the state of a program, and stations without hardware."""
import sys

# Each program can be read by Python 3.9, so that it comes this far.
if sys.version_info < (3, 11):
    sys.exit(f"-- this takes Python 3.11 or later, and this is {sys.version.split()[0]}")
