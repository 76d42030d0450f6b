"""Runs `tests/one traffic`."""

import sys

from tests.traffic.script import main

sys.exit(main(sys.argv[1:], "traffic"))
