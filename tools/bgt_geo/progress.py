"""How far a long run is, on a terminal only."""
import sys
from typing import Iterable, TypeVar

Each = TypeVar("Each")


def steps(items: Iterable[Each], total: int | None, what: str) -> Iterable[Each]:
    """The items, with a bar on standard error where that is a terminal and tqdm is there."""
    if not sys.stderr.isatty():
        return items
    try:
        from tqdm import tqdm
    except ImportError:
        return items
    return tqdm(items, total=total, desc=what, unit="", leave=False, delay=1)
