"""Calls of bots: HTTP within bounds that no server can pass, and what came of each call."""
