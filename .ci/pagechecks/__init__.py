"""What `.ci/pages` and `.ci/conditions` check: the blocks, commands, links, names and prose of pages."""
