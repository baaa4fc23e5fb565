#!/usr/bin/env bash
# `dump` of riscv images of 64 MiB, 256 MiB and 1 GiB, all of whose pages are dumped, and of the image of 64 MiB that the
# command `image` makes, of which two thirds are. Beside it in turn: a plain C program of the same shape, which reads the
# whole image into fresh memory and writes as many bytes of it as the dump has, in pieces of 1 MiB; the same with a sync of
# the partition at the end, as `dump` syncs it around the headers; and dd, which copies the bytes in pieces of 4096. `dump` is
# started as the script `crashway` does, which has large pages for its memory; it and the C program are also run with the
# other kind of pages. Processor time, peak memory and ratios. The first argument is how many runs are timed (11 if it is left
# out), the others are the sizes in MiB. It needs cc, and for 1 GiB some 4 GiB of disk.
set -eu
top=$(cd "$(dirname "$0")/.." && pwd)
runs=${1:-11}
sizes=("${@:2}")
folder=$(mktemp -d)
trap 'rm -rf "$folder"' EXIT
. "$top/bench/timing.sh"
program=$top/crates/fd_tool/out/fd_tool

cat >"$folder/plain.c" <<'C'
#define _FILE_OFFSET_BITS 64
#include <fcntl.h>
#include <stdlib.h>
#include <sys/stat.h>
#include <unistd.h>

/* IMAGE PARTITION LENGTH [SYNC]: writes so many bytes of the image's end at the partition's beginning. */
int main(int count, char **args) {
    struct stat stat;
    int image = open(args[1], O_RDONLY), partition = open(args[2], O_WRONLY);
    if (count < 4 || count > 5 || image < 0 || partition < 0 || fstat(image, &stat)) return 1;
    size_t length = strtoull(args[3], NULL, 10), size = stat.st_size, done = 0;
    char *bytes = malloc(size);
    if (!bytes || length > size) return 1;
    while (done < size) {
        ssize_t now = pread(image, bytes + done, size - done, done);
        if (now <= 0) return 1;
        done += now;
    }
    for (done = 0; done < length;) {
        size_t left = length - done, piece = left < 1 << 20 ? left : 1 << 20;
        ssize_t now = pwrite(partition, bytes + size - length + done, piece, done);
        if (now <= 0) return 1;
        done += now;
    }
    return count == 5 && fsync(partition) != 0;
}
C
cc -O2 -Wall -Werror -o "$folder/plain" "$folder/plain.c"

# Times the dump of the file `a.img`, of which the other two write as many bytes as the dump has.
measure() {
    local words size length
    size=$(stat -c %s "$folder/a.img")
    truncate -s 0 "$folder/dumpdev" "$folder/copy"
    truncate -s "$((size / 4096 * 4096 + (1 << 22)))" "$folder/dumpdev"
    words=$("$top/crashway" "$folder" 512 dump a.img)
    length=${words#dumped }
    length=$((length < size ? length : size))
    truncate -s "$size" "$folder/copy"
    echo "$1: an image of $size bytes, $words"
    alternate -- dump "$large_pages" "$program" "$folder" 512 dump a.img \
        -- 'small pages' "$program" "$folder" 512 dump a.img \
        -- 'plain C' "$folder/plain" "$folder/a.img" "$folder/copy" "$length" \
        -- 'C, large pages' "$large_pages" "$folder/plain" "$folder/a.img" "$folder/copy" "$length" \
        -- 'C with a sync' "$folder/plain" "$folder/a.img" "$folder/copy" "$length" sync \
        -- dd dd "if=$folder/a.img" "of=$folder/copy" bs=4096 "count=$((length / 4096))" conv=notrunc status=none
}

if [ ${#sizes[@]} = 0 ]; then
    sizes=(64 256 1020)
    "$top/crashway" "$folder" 512 image arm64 16376 a.img
    measure 'two thirds of 64 MiB'
fi
for size in "${sizes[@]}"; do
    "$top/bench/image.sh" $((size * 256)) >"$folder/a.img"
    measure "all of $size MiB"
done
