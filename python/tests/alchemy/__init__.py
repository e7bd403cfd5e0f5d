"""The suite of tests that SQLAlchemy has for dialects."""
