"""A session of requests that caches in a folder.  usage: cached.py FOLDER URL"""
import sys

import requests

import vosdrieng.requests

folder, url = sys.argv[1:]
session = requests.Session()
vosdrieng.requests.mount(session, store=folder)
for _ in range(2):
    answer = session.get(url)
    print(answer.status_code, len(answer.content), "from the cache" if answer.from_cache else "from the origin", answer.cache_reason)
