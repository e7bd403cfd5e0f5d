"""Csv files: how they are read, what their columns mean, and how they are loaded."""
