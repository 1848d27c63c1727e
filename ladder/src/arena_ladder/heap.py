"""The heap of the C library: one for all threads, of which what is free goes back to the system.

So that what one thread frees each other one uses. Large blocks that live for a moment, as those of
a compression, lie outside it; between small ones that stay they would leave more and more gaps.
"""

from __future__ import annotations

import asyncio
import ctypes

ARENA_MAX, MMAP_THRESHOLD = -8, -3  # the numbers of glibc's options
LARGE = 32 * 1024  # bytes of a block that lies outside
TRIM_SECONDS = 60.0


def use_one_heap() -> None:
    """Chooses it, where the C library has several; it is called before threads start."""
    library = ctypes.CDLL(None)
    if hasattr(library, "mallopt"):
        library.mallopt(ARENA_MAX, 1)
        library.mallopt(MMAP_THRESHOLD, LARGE)


async def keep_heap_small() -> None:
    """Gives free memory back again and again, also that between blocks that are used."""
    library = ctypes.CDLL(None)
    while hasattr(library, "malloc_trim"):
        await asyncio.sleep(TRIM_SECONDS)
        library.malloc_trim(0)
