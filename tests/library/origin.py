#!/usr/bin/env python3
"""An origin of one body of 300,000 bytes, which breaks the first answer behind 120,000 of them: origin.py PORT."""
import http.server
import sys

BODY = bytes((i * 7 + i // 251) % 256 for i in range(300_000))


class Origin(http.server.BaseHTTPRequestHandler):
    protocol_version, broken = "HTTP/1.1", False

    def do_GET(self):
        first = int(self.headers.get("range", "bytes=0-")[len("bytes="):].split("-")[0])
        self.send_response(206 if "range" in self.headers else 200)
        if "range" in self.headers:
            self.send_header("content-range", f"bytes {first}-{len(BODY) - 1}/{len(BODY)}")
        for name, value in (("etag", '"one"'), ("cache-control", "max-age=60"), ("content-length", str(len(BODY) - first))):
            self.send_header(name, value)
        self.end_headers()
        cut, Origin.broken = (len(BODY) if Origin.broken else 120_000), True
        self.wfile.write(BODY[first:cut])
        self.close_connection = True

    def log_message(self, *_):
        pass


http.server.ThreadingHTTPServer(("127.0.0.1", int(sys.argv[1])), Origin).serve_forever()
