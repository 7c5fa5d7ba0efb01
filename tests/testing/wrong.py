"""The exception of a check, and the comparison of two values."""


class Wrong(AssertionError):
    """Something is not as it should be."""


def wanted(what: str, got: object, right: object) -> None:
    """Raises Wrong if a value isn't the right one."""
    if got != right:
        raise Wrong(f"{what}: {got!r} instead of {right!r}")
