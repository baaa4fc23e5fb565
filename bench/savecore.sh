#!/usr/bin/env bash
# `savecore` of riscv dumps of 64 MiB, 256 MiB and 1 GiB, beside dd, which copies the dump's bytes out of the partition in
# pieces of 4096 and syncs the copy. The dump is kept and the number too, so that each run does the same. Processor time, peak
# memory and ratios: the peak is to be one for all sizes. The first argument is how many runs are timed (11 if it is left out),
# the others are the sizes in MiB. It needs cc, and for 1 GiB some 4 GiB of disk.
set -eu
top=$(cd "$(dirname "$0")/.." && pwd)
runs=${1:-11}
sizes=("${@:2}")
[ ${#sizes[@]} -gt 0 ] || sizes=(64 256 1020)
folder=$(mktemp -d)
trap 'rm -rf "$folder"' EXIT
. "$top/bench/timing.sh"
program=$top/crates/fd_tool/out/fd_tool

for size in "${sizes[@]}"; do
    "$top/bench/image.sh" $((size * 256)) >"$folder/a.img"
    whole=$(($(stat -c %s "$folder/a.img") / 4096 * 4096 + (1 << 22)))
    truncate -s 0 "$folder/dumpdev"
    truncate -s "$whole" "$folder/dumpdev"
    words=$("$top/crashway" "$folder" 512 dump a.img)
    rm "$folder/a.img"
    length=${words#dumped }
    echo "$size MiB: $words"
    alternate -- savecore "$program" "$folder" 512 savecore -k -m 1 \
        -- dd dd "if=$folder/dumpdev" "of=$folder/copy" bs=4096 iflag=skip_bytes "skip=$((whole - 512 - length))" "count=$((length / 4096))" \
        conv=fsync status=none
    cmp "$folder/vmcore.0" "$folder/copy"
done
