"""The checker of command files: `arena-check`."""
