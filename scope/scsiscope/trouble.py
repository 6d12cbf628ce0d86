"""What ends a word with trouble (status 2)."""


class Trouble(Exception):
    """A message in words: what is wrong, and what to do instead."""
