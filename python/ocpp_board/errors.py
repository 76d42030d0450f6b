"""The errors of this package. A message names what is wrong, where, and the remedy, in one line."""


class OcppBoardError(Exception):
    """The base of all errors. `status`: the exit status of a command that ends by it."""

    status = 2


class UsageError(OcppBoardError):
    """The words of a command are wrong."""


class InputError(OcppBoardError):
    """Something in what was read can't be taken."""

    status = 1


class StoreError(OcppBoardError):
    """The store can't be used, or holds what it can't hold."""


class StoreAway(StoreError):
    """The store is away, busy or full: the same may be asked again."""


class ProgramError(OcppBoardError):
    """The proved program can't be run, or ended by a fault."""
