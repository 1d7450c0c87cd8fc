"""desk: a companion for the person at the desk, who plans with europa.

desk asks europa for everything. It reads what europa prints, and tells it in sentences, tables and drawings.
"""
VERSION = "1.0"
