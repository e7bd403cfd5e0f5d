"""Queries in SQL beyond what the program answers by itself."""
