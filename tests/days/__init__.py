"""Tests of days, bills, corrections and forgetting, on a SQLite store and on a PostgreSQL one."""
