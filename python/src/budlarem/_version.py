"""The version. In the wheel `build_wheel.py` adds the commit and the size of the library."""

from __future__ import annotations

VERSION = "0.2.0"
COMMIT = "unknown"
LIBRARY_BYTES: int | None = None
