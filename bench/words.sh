#!/usr/bin/env bash
# The time of one word of a vmcore, read again and again in one process at one address (`fd_bench words`), beside a C loop of
# `pread` of the eight bytes at the same place of the file: in vmcores of 64 MiB and of 1 GiB, at their first page of memory,
# at one in the middle and at their last. Processor time of so many words that the start of a process doesn't matter, peak
# memory and ratio. The first argument is how many runs are timed (11 if it is left out), the second is how many words a run
# reads (1000000), the others are the sizes in MiB. It needs cc, and for 1 GiB some 3 GiB of disk.
set -eu
top=$(cd "$(dirname "$0")/.." && pwd)
runs=${1:-11} count=${2:-1000000}
sizes=("${@:3}")
[ ${#sizes[@]} = 0 ] && sizes=(64 1020)
folder=$(mktemp -d)
trap 'rm -rf "$folder"' EXIT
. "$top/bench/timing.sh"
bench=$top/crates/fd_bench/out/fd_bench
[ -x "$bench" ] || (cd "$top/crates/fd_bench" && rt run -- leaves 0 1 1) >"$folder/build.log" 2>&1 || {
    cat "$folder/build.log"
    exit 1
}

cat >"$folder/plain.c" <<'C'
#define _FILE_OFFSET_BITS 64
#include <fcntl.h>
#include <inttypes.h>
#include <stdio.h>
#include <stdlib.h>
#include <unistd.h>

/* FILE COUNT PLACE: what so many reads of the eight bytes at a place of the file add up to. */
int main(int count, char **args) {
    int file = open(args[1], O_RDONLY);
    uint64_t left = strtoull(args[2], NULL, 10), place = strtoull(args[3], NULL, 10), word, sum = 0;
    if (count != 4 || file < 0) return 1;
    for (; left; left--) {
        if (pread(file, &word, 8, place) != 8) return 1;
        sum += word;
    }
    printf("%" PRIu64 "\n", sum);
}
C
cc -O2 -Wall -Werror -o "$folder/plain" "$folder/plain.c"

# Makes the file `vmcore` of an image all of whose pages, so many, are dumped.
make_vmcore() {
    local words length size
    "$top/bench/image.sh" "$1" >"$folder/a.img"
    size=$(($1 * 4096 + (1 << 22)))
    truncate -s 0 "$folder/dumpdev"
    truncate -s "$size" "$folder/dumpdev"
    words=$("$top/crashway" "$folder" 512 dump a.img)
    rm "$folder/a.img"
    length=${words#dumped }
    # The dump stands before the trailing header's block.
    tail -c $((length + 512)) "$folder/dumpdev" | head -c "$length" >"$folder/vmcore"
}

for size in "${sizes[@]}"; do
    pages=$((size * 256))
    make_vmcore "$pages"
    memory=$(($(stat -c %s "$folder/vmcore") - 4096 * pages))
    for page in 0 $((pages / 2)) $((pages - 1)); do
        ours=("$bench" words "$folder" vmcore "$count" "$(printf '0x%x' $((0xffffffd000000000 + 4096 * page + 8)))")
        theirs=("$folder/plain" "$folder/vmcore" "$count" $((memory + 4096 * page + 8)))
        [ "$("${ours[@]}")" = "$("${theirs[@]}")" ] || { echo "the sums differ" && exit 1; }
        echo "$size MiB, page $page, $count words:"
        alternate -- 'Kvm::read' "${ours[@]}" -- pread "${theirs[@]}"
    done
done
