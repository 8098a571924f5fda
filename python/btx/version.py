"""The version of the package."""

from __future__ import annotations

import pathlib
import re
from typing import Optional

__all__ = ["VERSION"]

# Where the sources say which version they are.
OF_SOURCES = pathlib.Path(__file__).resolve().parents[2] / "library" / "Makefile"


def version_of_sources() -> Optional[str]:
    """The version of the sources that this package stands in, if it stands in them."""
    try:
        said = re.search(r"^VERSION = (\S+)$", OF_SOURCES.read_text(), re.MULTILINE)
    except OSError:
        return None
    return said[1] if said else None


def version_installed() -> str:
    """The version of the package that is installed; 0 where none is."""
    # (it takes as long as all else at the start)
    from importlib import metadata

    try:
        return metadata.version("btx")
    except metadata.PackageNotFoundError:
        return "0"


VERSION = version_of_sources() or version_installed()
