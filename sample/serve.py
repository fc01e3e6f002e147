#!/usr/bin/env python3
"""Lends the files of a folder to a browser, so that Neuroglancer can show its layers.

Usage: python3 sample/serve.py [FOLDER] [PORT]

FOLDER is the working directory, and PORT 9000, where they are not given. It listens on this machine alone, until it is interrupted. It
needs Python 3.8 and its standard library alone.
"""
import functools
import http.server
import sys


class Handler(http.server.SimpleHTTPRequestHandler):
    def end_headers(self):
        self.send_header("Access-Control-Allow-Origin", "*")  # without it a browser gives nothing to a page from elsewhere
        super().end_headers()


def main():
    folder = sys.argv[1] if len(sys.argv) > 1 else "."
    port = int(sys.argv[2]) if len(sys.argv) > 2 else 9000
    address = ("127.0.0.1", port)
    with http.server.ThreadingHTTPServer(address, functools.partial(Handler, directory=folder)) as server:
        print(f"http://{address[0]}:{port} has the files of {folder}", flush=True)
        try:
            server.serve_forever()
        except KeyboardInterrupt:
            pass


if __name__ == "__main__":
    main()
