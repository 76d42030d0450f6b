"""Stores in both databases for cases."""

from tests.store.conftest import found_program, named_store, running_cluster

__all__ = ["found_program", "named_store", "running_cluster"]
