"""Writes the demo's layers and requests: python3 checks demo_files demo"""
import sys

from checks.shared.images import items_of, laid_out
from checks.shared.messages import stream_of
from checks.shared.text import Words, words_of

LOWER = r'''
+x dir bin
+x file bin/hello.sh "#!/bin/sh\0aecho \22Hello from a romfs image.\22\0a"
link bin/greet "hello.sh"
+x dir etc
file etc/hostname "lantern\0a"
file etc/motd "Welcome to lantern. This tree is read-only.\0a"
hard etc/issue etc/motd
file etc/resolv.conf "nameserver 192.0.2.53\0asearch example.org\0a"
+x dir var
+x dir var/cache
file var/cache/index.1 "built for the lower layer\0a"
file var/cache/index.2 "built for the lower layer, too\0a"
char null 1 3
'''

# over it: another host name, no motd, and a cache of its own
UPPER = r'''
+x dir etc
file etc/hostname "beacon\0a"
file etc/.wh.motd ""
+x dir var
+x dir var/cache
file var/cache/.wh..wh..opq ""
file var/cache/index.3 "built for the upper layer\0a"
'''

# as a kernel sends them: uniques are even, and an INIT says all that a kernel knows
REQUESTS = '''
INIT 7.39 flags 0x73fffffb longer 48
LOOKUP 1 etc
LOOKUP 5 hostname
GETATTR 6
OPEN 6
READ 6 offset 0 size 4096
FLUSH 6
RELEASE 6
LOOKUP 5 motd
LOOKUP 5 issue
LOOKUP 5 ..
LOOKUP 1 bin
LOOKUP 2 greet
READLINK 3
OPENDIR 1
READDIR 1 offset 0 size 4096
READDIR 1 offset 6 size 4096
RELEASEDIR 1
LOOKUP 1 var
READDIRPLUS 10 offset 0 size 4096
READDIRPLUS 11 offset 0 size 4096
OPEN 6 flags 1
CREATE 5
GETXATTR 6
LOOKUP 6 nothing
GETATTR 99
STATFS
FORGET 6 nlookup 1
BATCH_FORGET count 2 item 7 1 item 3 1
DESTROY
'''


def lines_of(text):
    return [line for line in text.splitlines() if line]


def image_of(volume, text):
    items = [item for line in lines_of(text) for item in items_of(Words(words_of(line)))]
    image = laid_out(volume, items)
    # as genromfs pads a file to 1,024 bytes; the full size leaves the padding out
    return image + bytes(-len(image) % 1024)


def main(folder):
    requests = ["%s unique %d" % (line, 2 * number) for number, line in enumerate(lines_of(REQUESTS), 1)]
    files = {"lower.romfs": image_of(b"lower", LOWER), "upper.romfs": image_of(b"upper", UPPER),
             "requests.fuse": stream_of([Words(words_of(line)) for line in requests])}
    for name, data in files.items():
        with open("%s/%s" % (folder, name), "wb") as out:
            out.write(data)


main(sys.argv[1])
