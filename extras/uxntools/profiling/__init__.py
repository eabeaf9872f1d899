"""Exact profiles of a run: how often each instruction ran, in which routine, and who called that."""
