"""Lines that aren't ones: (schedule, report, which text is refused and at which line)."""

HEAD = "start 1 GET normal http://a.test/x 0\npoll 1 9\n"
ENTRIES = "> 1\n> 2\nopen 1 1 miss GET http://a.test/x 0\npending 1 head:1\n"

OF_SCHEDULE = (
    "poll 1", "poll 1 9 9", "poll  1 9", "poll 1 9 ", "poll 01 9", "poll 1 65537", "poll x 9", "poll 1 4611686018427387904",
    "POLL 1 9", "", "at 1\r", "at -1", "start 2 GET fast http://a.test/x 0", "start 2 CONNECT normal http://a.test/x 0",
    "start 2 GET normal ftp://a.test/x 0", "start 2 GET normal http://a.test/#x 0", "start 2 GET normal http://a.test/x 65",
    "start 2 GET normal http://a.test/x", "head 1 199 0", "head 1 600 0", "piece 1 6", "piece 1 6G", "piece 1 6A", "piece 1",
    "piece 1 " + "61" * 65_537, "end 1 1", "fault", "cancel 1.0", "doom x", "doom http://a.test/x 1", "poll 1 ٣",
)
OF_HEAD = ("Etag: a", "etag:a", "etag: a ", "etag:  a", "etag: a\x01", "b: 1\na: 1", "e tag: a", "etag: " + "a" * 8193)
OF_REPORT = (
    "open 2 1 want GET http://a.test/x 0", "open 2 1 hole:5-5 GET http://a.test/x 0", "open 2 1 hole:5 GET http://a.test/x 0",
    "open 2 1 miss GET http://a.test/x", "open 2 9 miss GET http://a.test/x 0", "ask 9", "ask", "close 9", "close 1 1",
    "shown 1 1 fetched 200 0 6 0", "shown 1 1 fresh:1 200 0 6 0", "shown 1 1 fetched:1 200 0 ? 0", "shown 9 1 fetched:1 200 0 6 0",
    "data 1 1 0 -", "data 1 1 0", "data 1 1 0 6G", "data 1 9 0 61", "ended 9", "failed 1 net", "failed 1 short:1:2",
    "failed 1 lost:1", "pending 1 nobody:1", "pending 1 head", "lost 1 stolen", "lost 9 full", "evicted 9", "denied 12",
    "denied 0", "denied 1", "denied 3 1", "denied", "denied 3", "told 1", "> 4", "> 2", ">", "> 03",
)


def cases():
    """The bad line is the third of the schedule, and the fifth of the report."""
    for line in OF_SCHEDULE:
        yield f"{HEAD}{line}\n", ENTRIES, ("the schedule", 3)
    for line in OF_HEAD:
        number = 3 + len(line.split("\n"))
        yield f"{HEAD}head 1 200 {len(line.split(chr(10)))}\n{line}\n", ENTRIES, ("the schedule", number)
    for line in OF_REPORT:
        yield f"{HEAD}poll 1 9\n", f"{ENTRIES}{line}\n", ("the report", 5)
    yield "at 5\nat 4\n", "", ("the schedule", 2)
    yield "a" * 140_001, "", ("the schedule", 1)
    yield HEAD, "open 1 1 miss GET http://a.test/x 0\n", ("the report", 1)
    yield HEAD, f"{ENTRIES}> 3\n", ("the report", 5)
    yield "poll 1 9\n", "> 1\n", ("the schedule", 1)
