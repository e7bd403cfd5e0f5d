"""Which views a schema should have, and which view answers a question."""
