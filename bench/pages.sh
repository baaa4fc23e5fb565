#!/usr/bin/env bash
# `pages` of a vmcore of 24,144 pages, which the direct map alone has, beside a plain C program that prints the same lines by
# printf and reads no file. Processor time of the whole processes, peak memory and ratio. The first argument is how many runs
# are timed (11 if it is left out). It needs cc, and 300 MiB of disk.
set -eu
top=$(cd "$(dirname "$0")/.." && pwd)
runs=${1:-11}
folder=$(mktemp -d)
trap 'rm -rf "$folder"' EXIT
. "$top/bench/timing.sh"
program=$top/crates/fd_tool/out/fd_tool
pages=24144

cat >"$folder/plain.c" <<'C'
#include <inttypes.h>
#include <stdio.h>
#include <stdlib.h>

/* COUNT PLACE: a line for each of so many pages from 0x80000000 on, the first of which stands at this place. */
int main(int count, char **args) {
    if (count != 3) return 1;
    uint64_t pages = strtoull(args[1], NULL, 10), place = strtoull(args[2], NULL, 10);
    for (uint64_t i = 0; i < 4096 * pages; i += 4096)
        printf("%016" PRIx64 " - %016" PRIx64 " rw- %" PRIu64 "\n",
               UINT64_C(0x80000000) + i, UINT64_C(0xffffffd000000000) + i, place + i);
    printf("%" PRIu64 " pages\n", pages);
    return fflush(stdout) != 0;
}
C
cc -O2 -Wall -Werror -o "$folder/plain" "$folder/plain.c"

"$top/bench/image.sh" $pages >"$folder/a.img"
truncate -s $((4096 * pages + (1 << 22))) "$folder/dumpdev"
words=$("$top/crashway" "$folder" 512 dump a.img)
length=${words#dumped }
# The dump stands before the trailing header's block, and the pages at its end.
tail -c $((length + 512)) "$folder/dumpdev" | head -c "$length" >"$folder/vmcore"
rm "$folder/a.img"
truncate -s 0 "$folder/dumpdev"
ours=("$program" "$folder" 512 pages vmcore)
theirs=("$folder/plain" "$pages" $((length - 4096 * pages)))
cmp <("${ours[@]}") <("${theirs[@]}")
alternate -- pages "${ours[@]}" -- 'printf in C' "${theirs[@]}"
