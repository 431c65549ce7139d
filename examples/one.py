"""One consumer, one download: the program plays the network.  usage: one.py LIBRARY"""
import sys

from vosdrieng import Cache, Data, Open


def show(acts):
    for act in acts:
        if isinstance(act, Open):
            print("ask for", act.target)
        elif isinstance(act, Data):
            print("consumer", act.consumer, "is given", act.data.decode())
        else:
            print(act)


with Cache.library(sys.argv[1]) as cache:
    cache.start(1000, 1, "GET", "http://a.test/film")
    show(cache.poll(1000, 1, 65536))
    cache.head(1000, 1, 200, [("Content-Length", "5"), ("Cache-Control", "max-age=60")])
    show(cache.poll(1000, 1, 65536))
    show(cache.poll(1000, 1, 65536))
    cache.piece(1000, 1, b"hello")
    show(cache.poll(1000, 1, 65536))
