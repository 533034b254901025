"""A service around the program `r53`: the driver r53d, and r53ctl with what operators ask.

The lines and replies of the program, its exit statuses and its two files are all that is known of it here
(docs/FORMATS.md and docs/JOURNAL.md). Python 3.11 and its standard library alone.
"""
