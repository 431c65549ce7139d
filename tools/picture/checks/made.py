"""Schedules with their reports, made by hand: what no worked row has."""

TARGET = "http://a.test/shared"


def crowd(consumers):
    """So many consumers start together; each waits for the turn, then all share one download of 3 bytes."""
    events, entries = [], []

    def add(event, *acts):
        events.append(event)
        entries.append("".join(act + "\n" for act in acts))

    head = 'cache-control: max-age=60\ncontent-length: 3\netag: "a"'
    for c in range(1, consumers + 1):
        add(f"start {c} GET normal {TARGET} 0")
    add("poll 1 9", f"open 1 1 miss GET {TARGET} 0", "pending 1 head:1")
    for c in range(2, consumers + 1):
        add(f"poll {c} 9", f"pending {c} turn:1")
    add(f"head 1 200 3\n{head}")
    add("poll 1 9", f"shown 1 1 fetched:1 200 0 3 3\n{head}")
    add("poll 1 9", "ask 1", "pending 1 body:1")
    add("piece 1 616263")
    for c in range(2, consumers + 1):
        add(f"poll {c} 9", f"shown {c} 1 fresh:0/60 200 0 3 4\nage: 0\n{head}")
    for c in range(1, consumers + 1):
        add(f"poll {c} 9", f"data {c} 1 0 616263")
        add(f"poll {c} 9", f"ended {c}")
    report = "".join(f"> {n}\n{acts}" for n, acts in enumerate(entries, 1))
    return "at 1000\n" + "".join(event + "\n" for event in events), report


# A target, a field and a value that would be markup if they weren't shown as text.
HOSTILE_TARGET = "http://a.test/'onload=alert(1)&lt;b"
HOSTILE_VALUE = """</script><script>document.title='broken'</script><img src=x onerror="alert('1')">"""


def hostile():
    fields = f"etag: {HOSTILE_VALUE}\nx-a'b: \x80\xff {HOSTILE_VALUE}"
    schedule = f"start 1 GET normal {HOSTILE_TARGET} 0\npoll 1 9\nhead 1 200 2\n{fields}\npoll 1 9\n"
    report = (f"> 1\n> 2\nopen 1 1 miss GET {HOSTILE_TARGET} 0\npending 1 head:1\n> 3\n> 4\n"
              f"shown 1 1 fetched:1 200 0 - 2\n{fields}\n")
    return schedule, report
