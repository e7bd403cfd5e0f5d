"""A warehouse that is spread over folders and machines."""
