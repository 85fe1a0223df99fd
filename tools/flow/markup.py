"""Pieces of a page (HTML and SVG)."""
from html import escape
from typing import Union


def text(value: object) -> str:
    """A value as it is read, whatever signs are in it."""
    return escape(str(value))


def tag(name: str, *inside: str, **attributes: Union[str, int, float]) -> str:
    """A piece with attributes around others, which are markup already. An attribute's `_` stands for `-`, and one at its end for none."""
    given = "".join(f' {key.rstrip("_").replace("_", "-")}="{escape(str(value), True)}"' for key, value in attributes.items())
    return f"<{name}{given}>{''.join(inside)}</{name}>"
