#!/usr/bin/env bash
# `savecore -C` over a sparse partition of 1 TiB, beside dd that reads as many sectors of it: processor time, peak memory and
# their ratio. The first argument is how many runs are timed (21 if it is left out). It needs cc.
set -eu
top=$(cd "$(dirname "$0")/.." && pwd)
runs=${1:-21}
folder=$(mktemp -d)
trap 'rm -rf "$folder"' EXIT
. "$top/bench/timing.sh"

# The stored partition's two headers, before and behind a dump of 512 bytes, at the end of 1 TiB.
small=$top/crates/fd_tool/data/dumpdev
sectors=$(((1 << 40) / 512))
truncate -s "$((sectors * 512))" "$folder/dumpdev"
dd if="$small" of="$folder/dumpdev" bs=512 skip=128 seek=$((sectors - 3)) count=1 conv=notrunc status=none
dd if="$small" of="$folder/dumpdev" bs=512 skip=130 seek=$((sectors - 1)) count=1 conv=notrunc status=none

"$top/crashway" "$folder" 512 savecore -C
alternate -- 'savecore -C' "$top/crates/fd_tool/out/fd_tool" "$folder" 512 savecore -C \
    -- dd dd "if=$folder/dumpdev" of=/dev/null bs=512 "skip=$((sectors - 3))" count=2 status=none
