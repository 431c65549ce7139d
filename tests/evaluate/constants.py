"""Constants of the toolchain's sources, by path, which a program that runs definitions can't read.

They are sets of bytes of the URL Standard (sections "percent-encoded bytes" and "host miscellaneous"), each a mask with a bit for each
byte, and a list that denies no byte.
"""
from types import SimpleNamespace

URL = "Rattle.url.specs.declared.sets.TheConstants."
CONTROLS = "".join(map(chr, [*range(32), 127]))
FRAGMENT = CONTROLS + ' "<>`'
PATH = FRAGMENT + "#?^{}"
QUERY = CONTROLS + ' "#<>'
HOST = "\0\t\n\r #/:<>?@[\\]^|"
SETS = {
    "Rattle.percent_encoding.specs.declared.ascii_set.TheConstants.CONTROLS": CONTROLS,
    URL + "FRAGMENT": FRAGMENT,
    URL + "PATH": PATH,
    URL + "USERINFO": PATH + "/:;=@[\\]|",
    URL + "OPAQUE_PATH": CONTROLS + "#?",
    URL + "QUERY": QUERY,
    URL + "SPECIAL_QUERY": QUERY + "'",
    URL + "FORBIDDEN_HOST": HOST,
    URL + "FORBIDDEN_DOMAIN": HOST + CONTROLS + "%",
}


def mask(text):
    return sum(1 << byte for byte in set(map(ord, text)))


CONSTANTS = {path: SimpleNamespace(mask=mask(text)) for path, text in SETS.items()}
CONSTANTS["Rattle.idna.specs.declared.deny_list.TheConstants.AsciiDenyList.EMPTY"] = SimpleNamespace(bits=0)
