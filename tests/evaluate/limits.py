"""Limits of a store, for the model and for the definitions."""
from contextlib import contextmanager

import images
import leaving
from definitions import record

AMPLE = leaving.MOST_BODY, leaving.MOST_STORED


def limits_of(limits):
    return record(max_entry=limits[0], max_total=limits[1])


@contextmanager
def limited_to(limits):
    """The model has these limits meanwhile."""
    for module in (leaving, images):
        module.MOST_BODY, module.MOST_STORED = limits
    try:
        yield
    finally:
        for module in (leaving, images):
            module.MOST_BODY, module.MOST_STORED = AMPLE
