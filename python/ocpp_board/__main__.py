"""`python3 -m ocpp_board COMMAND ..`, as the command `ocpp-board`."""

import sys

from ocpp_board.cli import main

sys.exit(main())
