"""Stations' WebSocket connections: who comes in, how much of it is read, and answers after the commit.

`gateway.py` joins the parts, `station_socket.py` has one station's connection, `door.py` lets stations in, `basic.py`
and `certificates.py` say by what, `tries.py` has what wrong passwords cost, `lanes.py` gathers messages into batches,
`settler.py` is the process that settles them, `lookouts.py` sees what changed in the store, and `metrics.py` shows
figures.
"""
