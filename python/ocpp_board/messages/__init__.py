"""What only a message has, read by one reader: its JSON, times and readings, and why the program refuses it.

    texts            OCPP-J as text: JSON as it is written, members, what is surely no event
    times            the one reader of times, which takes what the program takes
    meter_values     readings: values in whole milliwatt-hours, measurands
    signed_values    signed values (OCMF), compared with the plain values beside them
    bills            what a bill needs of a session beside its energy: ids as sent, tokens, signed values
    transactions     events of transactions: readings, reasons, tokens, measurands that don't count
    mend             puts vendors' faults right, as a site declares
    message_faults   which member of a refused message broke which check, and the remedy

The program's answers decide what was accepted, and its lists what counts; nothing here computes a board.
"""
