"""Makes the program from its sources, and dist/ from the program."""
