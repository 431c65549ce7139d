"""Vosdrieng, an HTTP cache, in Python.

`Cache` is the cache itself, one call an event. `vosdrieng.download` has an asyncio downloader over it, and `vosdrieng.requests` a
transport adapter for `requests` and `urllib3`.
"""
from .acts import Act, Ask, Close, Data, Denied, Ended, Evicted, Failed, Fields, Lost, Open, Pending, Shown
from .cache import Cache
from .errors import BadImage, BadText, CacheError, Changed, DownloadFailed, Gone, Refused

__all__ = [
    "Act", "Ask", "BadImage", "BadText", "Cache", "CacheError", "Changed", "Close", "Data", "Denied", "DownloadFailed", "Ended", "Evicted",
    "Failed", "Fields", "Gone", "Lost", "Open", "Pending", "Refused", "Shown",
]
__version__ = "0.1.0"
