"""What ends a search before it begins."""


class WrongUse(Exception):
    """The search cannot begin: the message says why, for a person."""
