"""What a tool says where it can't do what it is asked."""


class Refused(Exception):
    """The reason, and what to do about it."""
