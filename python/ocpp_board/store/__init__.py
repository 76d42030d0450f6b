"""The store: a SQLite file or a PostgreSQL database with sites, stations, lines, the rows made of them, and views.

    database    one class for both databases: statements with named parameters, transactions, moments
    schema.sql  the tables, once for both
    views.sql   the boards and what is asked of them, once for both
    plan        sites and stations, and who changed them
    closing     what closings froze, and what they corrected (days.sql, days_views.sql)
    decisions   adjustments, releases, and sessions settled by rule
    lines       the statements by which the engine reads and writes lines and rows
"""
