"""What is kept of games: the store, ratings from it, seasons, archives and logs."""
