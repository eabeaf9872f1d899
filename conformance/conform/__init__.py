"""What the tools of the conformance suite share."""
