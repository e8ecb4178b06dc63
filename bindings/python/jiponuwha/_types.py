"""The message of a TypeError."""
from __future__ import annotations


def wrong_type(what: str, value: object, wanted: str) -> TypeError:
    """Returns the exception for an argument of a wrong type."""
    return TypeError(f"{what} must be {wanted}, not {type(value).__name__}")


def need_int(what: str, value: object) -> None:
    """Raises TypeError if an argument is not an int."""
    if not isinstance(value, int):
        raise wrong_type(what, value, "an int")


def need_str(what: str, value: object) -> None:
    """Raises TypeError if an argument is not a str."""
    if not isinstance(value, str):
        raise wrong_type(what, value, "a str")
