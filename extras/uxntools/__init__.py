"""What the tools of extras/bin share: calls of `uxn`, and the files that it reads and writes."""
