#!/usr/bin/env python3
"""Prints a stream of requests, each with its reply below it: tools/show.py REQUESTS REPLIES

REQUESTS and REPLIES are files as `strata serve --requests REQUESTS --replies REPLIES` reads and writes them.
"""
import sys
sys.dont_write_bytecode = True

from strata_format import ends
from strata_format.fuse_text import stream_lines


def main(requests, replies):
    with open(requests, "rb") as asked, open(replies, "rb") as answered:
        lines = stream_lines(asked.read(), answered.read())
        return ends.tell("tools/show.py", "".join(line + "\n" for line in lines))


if __name__ == "__main__":
    sys.exit(main(*sys.argv[1:]))
