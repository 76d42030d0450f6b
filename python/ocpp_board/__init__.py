"""What is around `ocpp_board`, the proved transaction ledger: logs, the store, gateways, pages and bills.

    sources     logs of a CSMS in all their forms, logs that grow, and scripts
    messages    what only a message has: JSON, times, readings, why it is refused
    ledger      runs the proved program, reads its answers, and settles lines in a store
    store       the database: tables, views, the plan, closings
    writers     CSV tables, pages, bills
    gateway     takes stations' connections
    feed        takes the queues of a CSMS
    web         pages in a browser, operators, and the API
    commands    the commands of `ocpp-board`

What all of these use is here: cli (the command `ocpp-board`), errors, statuses (how a command ends), reporting (what
commands write to standard error), progress, records (what packages hand to each other), limits (those of the program),
energies, escapes, words, passwords and processes.
"""
