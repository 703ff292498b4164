"""From a file of readings to series of tilt, and from its output to tables and pictures.

`run` and `Query` are for programs; they need pandas when they are called, and not before. `plot` needs matplotlib then, and `scale`
`dask.distributed` only with a scheduler. A name is imported when it is used, so that a command loads only what it needs."""
from __future__ import annotations

import importlib
from typing import TYPE_CHECKING, Any

if TYPE_CHECKING:
    from .convention import Convention
    from .errors import Refused, TiltError
    from .frames import Query, run, series, span
    from .live import Live
    from .plotting import plot
    from .program import Explained
    from .scaling import Scaled, scale
    from .version import VERSION as __version__

__all__ = ["Convention", "Explained", "Live", "Query", "Refused", "Scaled", "TiltError", "__version__"]
__all__ += ["plot", "run", "scale", "series", "span"]
# The module of each name.
PLACES = {"Convention": "convention", "Explained": "program", "Live": "live", "Query": "frames", "Refused": "errors", "Scaled": "scaling"}
PLACES |= {"TiltError": "errors", "__version__": "version", "plot": "plotting", "run": "frames", "scale": "scaling", "series": "frames"}
PLACES |= {"span": "frames"}


def __getattr__(name: str) -> Any:
    if name not in PLACES:
        raise AttributeError(f"module {__name__!r} has no attribute {name!r}")
    module = importlib.import_module(f".{PLACES[name]}", __name__)
    found = getattr(module, "VERSION" if name == "__version__" else name)
    globals()[name] = found
    return found


def __dir__() -> list[str]:
    return sorted({*globals(), *__all__})
