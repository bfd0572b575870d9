"""What is told once, and then only read."""

from __future__ import annotations


class ReadOnly:
    """What is told once, and then only read."""

    def __setattr__(self, name: str, value: object) -> None:
        raise AttributeError(f"{name} can only be read")

    def __delattr__(self, name: str) -> None:
        raise AttributeError(f"{name} can only be read")
