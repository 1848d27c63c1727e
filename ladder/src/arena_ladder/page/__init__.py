"""The ladder's page: a process that serves the results and the games that are played."""
