"""What `./test` runs: the parts of the tests, the jobs of each, and how they go side by side."""
