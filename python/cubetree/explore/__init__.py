"""A page on this machine, on which a warehouse is explored in a browser."""
