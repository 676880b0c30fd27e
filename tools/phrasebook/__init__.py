"""Phrase tables as text. Nothing here is proved, and nothing proved depends on it."""
