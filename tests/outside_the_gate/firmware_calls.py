#!/usr/bin/env python3
"""The random calls of the C library's test, as many as are asked for, with every wrong model; outside the gate:

    python3 tests/outside_the_gate/firmware_calls.py 100000
"""
import os
import sys
import unittest

sys.path.insert(0, os.path.dirname(os.path.dirname(os.path.abspath(__file__))))
import helpers
from cases import test_firmware
from repository import parser, positive


def main():
    words = parser(__doc__)
    words.add_argument("calls", metavar="CALLS", type=positive, help="how many calls")
    test_firmware.CALLS = words.parse_args().calls
    test = test_firmware.Calls("test_random_calls_answer_and_leave_what_the_model_does_and_every_refusal_is_met")
    passed = unittest.TextTestRunner().run(unittest.TestSuite([test])).wasSuccessful()
    print(f"{test_firmware.CALLS} calls, {len(test.told)} counters, the least {min(test.told.values(), default=0)}, {len(test_firmware.firmware_mutants.WRONG)} wrong models")
    return 0 if passed else 1


if __name__ == "__main__":
    sys.exit(main())
