"""What is played: the configuration, which games, their maps and draws, and one game."""
