"""The tools beside shadowd, in five parts.

    formats    readers of tables, banks, plans, maps and journals, which the tools of agencies share
    agency     what an agency runs: from item parameters to a bank, a simulation, and results
    page       the page of report.py: its formulas, pictures, sentences and tables
    checkers   readers and judges that were written from the format pages alone, and check the program
    gate       what the full check runs, or a developer: tests, page checks, and trials of the program

`tools/NAME.py` runs the module NAME of one of the parts. Only `agency` and `page` need more than the standard library.
"""
