"""The command line: `main`, the commands by their subject, and boards on a terminal."""
