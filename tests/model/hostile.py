"""Lines of schedules that can't stand where they are, or are near to that."""
from answers import Chance

BAD_LINES = [
    b"poll 1\n", b"poll 01 1\n", b"at 5\n", b"at x\n", b"\n", b"start 900 GET normal http://a.test/x 65\n",
    b"start 900 GET normal http://a.test 0\n", b"start 900 CONNECT normal http://a.test/x 0\n",
    b"start 900 GET nope http://a.test/x 0\n", b"head 1 199 0\n", b"head 1 600 0\n", b"poll 1 1", b"head 1 200 2\nb: 1\na: 1\n",
    b"head 1 200 1\nA: 1\n", b"head 1 200 1\na:1\n", b"head 1 200 1\na: 1 \n", b"head 1 200 1\na: \x01\n", b"piece 1 ABCD\n",
    b"piece 1 abc\n", b"piece 1 \n", b"piece 1 -\n\n", b"doom http://a.test/x#f\n", b"doom ftp://a.test/\n", b"end 1 \n", b" end 1\n",
    b"end 4611686018427387904\n", b"head 1 200 1\n", b"head 1 200 1\na: b", b"cancel 1\r\n",
    b"start 900 GET normal http://A.test/x 0\n", b"doom http://a.test:80/x\n", b"head 1 200 1\na: \tb\n",
    b"head 1 200 1\na: b\tc\nx\n", b"start 900 GET normal  0\n", b"start 900 G(T normal http://a.test 0\n",
    b"start 900 GET normal http://a.test/ 1\na: b\npoll x 1\n", b"poll 1 65537\n", b"at 4611686018427387904\n", b"\xff\n",
]
LONG_LINES = [
    b"x" * 140_001, b"x" * 140_001 + b"\n", b"x" * 140_000 + b"\n", b"piece 1 " + b"00" * 65_537 + b"\n",
    b"head 1 200 1\na: " + b"v" * 8193 + b"\n", b"head 1 200 5\n" + (b"a: " + b"v" * 8192 + b"\n") * 4 + b"a: v\n",
]
TARGETS = [
    b"http://a.test/", b"http://a.test/?", b"http://a.test/a/../b", b"http://a.test/%2e/b", b"http://a.test/.x",
    b"http://user@a.test/", b"http://u:p@a.test/", b"http://a.test:8080/", b"https://a.test:443/", b"http://a.test:080/",
    b"http://1.2.3.4/", b"http://1.2.3/", b"http://256.1.1.1/", b"http://[::1]/", b"http://[::0:1]/", b"http://a.test/a b",
    b"http://a.test/<", b"http://a.test/^", b"http://a.test/|", b"http://a.test/{", b"http://a.test/'", b"http://a.test/?'",
    b"http://a.test/?{|}^`", b"http://a.test/%zz", b"http://a.test/\xc3\xa9", b"http://a_b.test/", b"http://a..b/", b"http://a.test./",
    b"http://%61/", b"http://a.test/?\"", b"http://a.test/\"", b"http://a.test/`", b"http://a.test/\\", b"http://a.test//",
    b"http:///x", b"http://a.test/a/.", b"http://a.test/a/..", b"http://a.test/a/...", b"http://a.test:/", b"http://@a.test/",
    b"http://:@a.test/", b"http://:p@a.test/", b"http://a~b/", b"http://a^b/", b"http://a.0x1/", b"http://1e/", b"http://a.test/[]",
    b"http://a.test:65536/", b"http://a.test:0/", b"http://u;v@a.test/", b"http://xn--bcher-kva.test/", b"http://xn--a/",
    b"http://a.test/?a#", b"http://a.test/%2E%2E",
]


def hostile_lines(chance: Chance, has_starts: bool) -> bytes:
    """Lines that may be refused."""
    if chance.one_in(2):
        target = chance.choice(TARGETS)
        target = chance.mutated(target) if chance.one_in(2) else target
        lines = [b"doom %s\n" % target] + [b"start 900 GET disable %s 0\npoll 900 1\n" % target] * has_starts
        return chance.choice(lines) + b"poll 1 1\n"
    return chance.choice(LONG_LINES if chance.one_in(8) else BAD_LINES) + b"poll 1 1\n"
