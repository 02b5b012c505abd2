"""A second reading of document 01 in Python, unrelated to the engine: what the two calls and the desk program must answer."""
