#!/usr/bin/env bash
# `dump` of two valid images that are made to be slow, beside the plain image of dump.sh: processor seconds, the least of
# runs that alternate. Both are amd64 images with the largest kernel window, 2^41 bytes, whose page tables are shared: all
# entries of the top table name one table, all of whose entries name one table, and so on, so that the window has 2^29
# last-level entries. In the first, of 20 KB, none of them maps a page; in the second, of 4 MiB, each maps a page of
# another of 1009 ranges in 64 segments than the entry before. The first argument is how many runs are timed (3 if it is
# left out). It needs python3.
set -eu
top=$(cd "$(dirname "$0")/.." && pwd)
runs=${1:-3}
folder=$(mktemp -d)
trap 'rm -rf "$folder"' EXIT

"$top/bench/image.sh" 16384 >"$folder/plain.img"
python3 - "$folder" <<'PY'
import struct, sys

start, page = 0x100000, 4096
tables = [start + page * level for level in range(4)]


def image(name, segments, pairs, leaves):
    """An image whose first segment begins with the four shared tables, of which the last has these leaves."""
    words = [[table | 3] * 512 for table in tables[1:]] + [leaves]
    text, window, direct = b"shared", 1 << 41, 0xFFFFF80000000000
    with open(f"{sys.argv[1]}/{name}.img", "wb") as out:
        out.write(b"FD MACHINE IMAGE")
        out.write(struct.pack("<10I", 1, 1, len(segments), len(pairs), 0, len(text), 0, 0, 0, 0))
        out.write(struct.pack("<3Q", start, (1 << 64) - window, window))
        out.write(struct.pack("<4Q", direct, direct + sum(segments[-1]), 0, 1700000000))
        for numbers in segments + pairs:
            out.write(struct.pack("<2Q", *numbers))
        out.write(text)
        out.write(struct.pack("<2048Q", *(word for table in words for word in table)))
        out.write(bytes(sum(length for _, length in segments) - 4 * page))


image("absent", [(start, 5 * page)], [(start, start + 5 * page)], [0] * 512)
segments = [(start + 32 * page * index, 16 * page) for index in range(64)]
pages = [first + page * index for first, _ in segments for index in range(16)][4:1013]
leaves = [pages[509 * index % 1009] | 3 for index in range(512)]
image("scattered", segments, [(first, first + page) for first in pages], leaves)
PY
truncate -s 128M "$folder/dumpdev"

"$top/crashway" "$folder" 512 dump plain.img
python3 - "$runs" "$top/crates/fd_tool/out/fd_tool" "$folder" 512 dump <<'PY'
import os, sys

runs, command = int(sys.argv[1]), sys.argv[2:]
least = dict.fromkeys(["absent", "scattered", "plain"], float("inf"))
for _ in range(runs):
    for name in least:
        _, status, used = os.wait4(os.spawnv(os.P_NOWAIT, command[0], [*command, name + ".img"]), 0)
        if status != 0:
            sys.exit(f"the dump of {name}.img ended with {os.waitstatus_to_exitcode(status)}")
        least[name] = min(least[name], used.ru_utime + used.ru_stime)
for name, seconds in least.items():
    print(f"{name:12} {seconds:8.2f} s")
PY
