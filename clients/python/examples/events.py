"""The cache itself, one call an event: one download, and a hit.  usage: events.py (library|process) PATH"""
import sys

from vosdrieng import Cache, Data, Open

way, path = sys.argv[1:]
url, body = "http://a.test/film", b"hello, world"
with Cache.library(path) if way == "library" else Cache.process(path) as cache:
    for consumer, now in ((1, 1000), (2, 1009)):
        cache.start(now, consumer, "GET", url)
        first = cache.poll(now, consumer, 100)[0]
        if isinstance(first, Open):
            print("ask the origin for", first.method, first.target, "because of", first.need)
            cache.head(now, first.exchange, 200, [("Cache-Control", "max-age=60"), ("Content-Length", str(len(body)))])
            first = cache.poll(now, consumer, 100)[0]
            cache.poll(now, consumer, 100)
            cache.piece(now, first.representation, body)
        print(consumer, "is shown", first.status, first.why)
        while isinstance(act := cache.poll(now, consumer, 100)[0], Data):
            print(consumer, "is given", act.data)
