"""Wrong functions in the place of right ones, for the tests of what must find them out."""

from contextlib import contextmanager


@contextmanager
def planted(place, name, wrong):
    """The reference with one function of it replaced by a wrong one, which is given the right one first."""
    right = getattr(place, name)
    setattr(place, name, lambda *arguments: wrong(right, *arguments))
    try:
        yield
    finally:
        setattr(place, name, right)
