"""Generators of messages, for measuring and for tests: `tests/one traffic` writes a script of one.

    script          scripts of many events, and the words of the program
    month_traffic   the log of a month of two sites, with sessions that go wrong
    repeats         sessions of stations that list readings again at their end
    troubles        sessions with each kind of trouble

The examples, the tests and the figures of docs/performance.md use them.
"""
