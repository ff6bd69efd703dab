"""Releases of the format, by which a file is judged."""

from ._library import RELEASE_1_02, RELEASE_1_2

_NUMBERS = {"1.02": RELEASE_1_02, "1.2": RELEASE_1_2}


def release_number(release):
    """The release as the library takes it. A word that is none of the two is refused, since the library would take it for 1.2;
    so is a number, since 1.20 is 1.2 to Python."""
    if not isinstance(release, str):
        raise TypeError(f"release is {release!r}, and has to be '1.02' or '1.2'")
    if release not in _NUMBERS:
        raise ValueError(f"release is {release!r}, which is neither '1.02' nor '1.2'")
    return _NUMBERS[release]
