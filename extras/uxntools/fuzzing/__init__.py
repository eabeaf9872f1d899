"""Searching for scripts that break a program."""
