"""The debugger at the terminal: a session that goes back and forth in a run, and the commands that it takes."""
