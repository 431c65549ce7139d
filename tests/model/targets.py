"""Whether a text is a target: a web URL in the one spelling of the URL Standard, without a fragment."""
import ipaddress
import re

LONGEST = 8192

_URL = re.compile(
    rb"(?P<scheme>https?)://(?:(?P<user>[^:@/?]*)(?P<password>:[^:@/?]+)?@)?"
    rb"(?P<host>\[[0-9a-f:]+\]|[^\[\]:@/?]+)(?::(?P<port>[0-9]+))?(?P<path>/[^?]*)(?P<query>\?.*)?\Z",
    re.DOTALL,
)
_USER = re.compile(rb"[!$%&'()*+,\-.0-9A-Z_a-z~]*\Z")
_DOMAIN = re.compile(rb"[!\"$&'()*+,\-.0-9;=_`a-z{}~]+\Z")
_PATH = re.compile(rb"[!$%&'()*+,\-./0-9:;=@A-Z\[\]_a-z|~]*\Z")
_QUERY = re.compile(rb"[!$%&()*+,\-./0-9:;=?@A-Z\[\\\]^_`a-z{|}~]*\Z")
_DOTS = re.compile(rb"(?:\.|%2[eE]){1,2}\Z")
_NUMBER = re.compile(rb"(?:[0-9]+|0[xX][0-9a-fA-F]*)\Z")
_IPV4 = re.compile(rb"(?:(?:0|[1-9][0-9]{0,2})(?:\.(?!\Z)|\Z)){4}\Z")
_PORTS = {b"http": b"80", b"https": b"443"}


def _is_ipv6(host: bytes) -> bool:
    try:
        return str(ipaddress.IPv6Address(host.decode())).encode() == host
    except ValueError:
        return False


def _is_host(host: bytes) -> bool:
    """Labels in Punycode are not looked into."""
    if host.startswith(b"["):
        return _is_ipv6(host[1:-1])
    if not _DOMAIN.match(host):
        return False
    labels = host.split(b".")
    last = labels[-2] if labels[-1] == b"" and len(labels) > 1 else labels[-1]
    if _NUMBER.match(last):
        return bool(_IPV4.match(host)) and all(int(it) < 256 for it in labels)
    return True


def _is_port(port: bytes | None, scheme: bytes) -> bool:
    if port is None:
        return True
    return port == b"%d" % int(port) and int(port) < 65_536 and port != _PORTS[scheme]


def _is_path(path: bytes) -> bool:
    return bool(_PATH.match(path)) and not any(_DOTS.match(it) for it in path.split(b"/"))


def is_target(text: bytes) -> bool:
    found = _URL.match(text)
    if not found or len(text) > LONGEST:
        return False
    user, password = found["user"], found["password"]
    if user is not None and not (user or password):
        return False
    return (
        bool(_USER.match(user or b"")) and bool(_USER.match((password or b"")[1:]))
        and _is_host(found["host"]) and _is_port(found["port"], found["scheme"])
        and _is_path(found["path"]) and bool(_QUERY.match((found["query"] or b"")[1:]))
    )
