"""Rows that come one by one, for as long as they come."""
