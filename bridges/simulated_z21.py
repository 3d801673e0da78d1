#!/usr/bin/env python3
"""A Z21 without hardware, at a UDP port of this machine, to try z21.py with.

It loses one datagram in ten. It prints each command that changes the track, as DCC-EX would be told it, and refuses
what is not in its protocol. It has one track, and the decoder of one locomotive there can be programmed.

What is typed happens at the station itself. A number turns the sensor of that number. `on` and `off` are its button,
`stop` is its stop of all, `overload` a short circuit, and `program` has it program a decoder. `hand CAB SPEED
[DIRECTION]` is a throttle at the station. `reset` has it begin anew; `hang` begins a hang, and ends it.
"""
from functools import partial

from srcp_bridges.simulated import serves, show, words_of_station
from srcp_bridges.simulated_z21 import Z21


def main() -> None:
    words = words_of_station(__doc__, loses=(0.1, "datagrams that are lost"), doubles=(0, "datagrams that come twice"),
                             shuffles=(0, "datagrams that come behind others"))
    words.add_argument("port", metavar="PORT", type=int)
    words.add_argument("--locked", action="store_true", help="a z21start without its code: it does not drive")
    serves(partial(Z21, show=show, **vars(words.parse_args())))


if __name__ == "__main__":
    main()
