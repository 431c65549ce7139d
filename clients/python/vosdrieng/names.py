"""What tells apart what is stored: the URL, and who asks."""
from __future__ import annotations

import hashlib
from urllib.parse import urlsplit


def name_of(url: str, authorization: str | bytes | None) -> str:
    """The URL without its fragment, and a digest of who asks, so that two users share nothing and no password is kept."""
    url = url.partition("#")[0]
    if authorization is None and "@" not in url:
        return url
    who = authorization.encode("utf-8", "surrogateescape") if isinstance(authorization, str) else authorization or b""
    parts = urlsplit(url)
    user, at, host = parts.netloc.rpartition("@")
    if not at and not who:
        return url
    digest = hashlib.sha256(user.encode() + b"\n" + who).hexdigest()
    return f"{parts._replace(netloc=host).geturl()} {digest}"


def url_of(name: str) -> str:
    """The URL of a name. (It has no space.)"""
    return name.partition(" ")[0]
