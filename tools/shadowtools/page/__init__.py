"""The page of report.py: what a simulation measured, its formulas, pictures, sentences and tables."""
