"""The ledger: what messages ask for, what became of them, and the figures of each transaction, by the proved program.

    program     runs the proved program, by its shared library or by processes
    answers     reads what the program writes: answers, boards, lists
    events      what only the messages of a transaction have
    periods     how the figures of a transaction's periods were come by
    rows        the rows of one transaction from its lines: its board line, periods, facts, findings
    findings    what is doubtful in the data of one transaction
    refusals    why a message was refused, in words
    engine      settles texts and operators' lines in a store, and answers them
    scripts     whole scripts of a site's lines
    replay      a whole script line by line, for `explain`
    near_limits, repeat_hints   what `explain` reports beside mistakes
    settlers    processes that settle at once
    verify      compares a store's views with the boards of whole scripts
    corrections  corrects readings: void, erasure and the right message in one step
    forgetting  takes drivers' tokens out of lines and rows
    old_sessions  moves old sessions into files

Only `engine` and what is listed behind `scripts` know the store. A transaction's figures depend on its own lines only.
"""
