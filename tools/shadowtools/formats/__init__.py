"""Readers of tables, banks, plans, maps and journals. The standard library alone."""
