"""Where records come from: logs of a CSMS in all their forms, logs that still grow, and scripts.

A source yields records (`ocpp_board.records`) and knows nothing of the store. `forms` reads the lines of logs, `log`
makes messages of them, `stations` says which site a station has, `follow` reads a log that grows and is rotated, and
`script` reads scripts.
"""
