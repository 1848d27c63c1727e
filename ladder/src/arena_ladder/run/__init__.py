"""Plays games until all are done, replays them, and says how it goes."""
