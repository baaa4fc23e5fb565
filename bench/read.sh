#!/usr/bin/env bash
# `read` of 1 MiB of a vmcore, beside a plain C program of the same shape: it reads the bitmap into fresh memory, counts its
# bits and those below the first page, reads page after page and prints the same lines. In vmcores of 64 MiB and of 1 GiB, at
# their first MiB of memory and at their last; and in one with a bitmap of 64 MiB, the largest that is read, whose last 256
# pages alone are dumped. Processor time of the whole processes, peak memory and ratio. The first argument is how many runs are
# timed (11 if it is left out), the others are the sizes in MiB. It needs cc, and for 1 GiB some 4 GiB of disk.
set -eu
top=$(cd "$(dirname "$0")/.." && pwd)
runs=${1:-11}
sizes=("${@:2}")
[ ${#sizes[@]} -gt 0 ] || sizes=(64 1020)
folder=$(mktemp -d)
trap 'rm -rf "$folder"' EXIT
. "$top/bench/timing.sh"
program=$top/crates/fd_tool/out/fd_tool

cat >"$folder/plain.c" <<'C'
#define _FILE_OFFSET_BITS 64
#include <fcntl.h>
#include <inttypes.h>
#include <stdio.h>
#include <stdlib.h>
#include <string.h>
#include <unistd.h>

enum { PAGE = 4096, LENGTH = 1 << 20 };

/* The lines of a page at an address. */
static void print(uint64_t at, const unsigned char *bytes) {
    static const char digits[] = "0123456789abcdef";
    char line[65];
    line[64] = '\n';
    for (const unsigned char *end = bytes + PAGE; bytes < end; bytes += 16, at += 16) {
        for (int i = 0; i < 16; i++) line[i] = digits[at >> (60 - 4 * i) & 15];
        for (int i = 0; i < 16; i++) {
            line[16 + 3 * i] = ' ';
            line[17 + 3 * i] = digits[bytes[i] >> 4];
            line[18 + 3 * i] = digits[bytes[i] & 15];
        }
        fwrite(line, 1, 65, stdout);
    }
}

/* FILE BITMAP SIZE PAGES BIT ADDRESS: 1 MiB at an address, whose first page has this bit; the bitmap's place and size, the
   place of the pages. */
int main(int count, char **args) {
    if (count != 7) return 1;
    uint64_t at[7], all = 0, below = 0, word;
    for (int i = 2; i < 7; i++) at[i] = strtoull(args[i], NULL, 0);
    int file = open(args[1], O_RDONLY);
    uint64_t place = at[2], size = at[3], pages = at[4], bit = at[5];
    unsigned char *map = malloc(size), page[PAGE];
    off_t length = lseek(file, 0, SEEK_END);
    if (file < 0 || !map || pread(file, map, size, place) != (ssize_t)size) return 1;
    for (uint64_t i = 0; i < size; i += 8) {
        memcpy(&word, map + i, 8);
        if (i < bit / 64 * 8) below += __builtin_popcountll(word);
        all += __builtin_popcountll(word);
    }
    memcpy(&word, map + bit / 64 * 8, 8);
    below += __builtin_popcountll(word & ((UINT64_C(1) << bit % 64) - 1));
    if ((uint64_t)length < pages + PAGE * all) return 1;
    for (uint64_t done = 0; done < LENGTH; done += PAGE, bit++) {
        if (!(map[bit / 8] >> bit % 8 & 1) || pread(file, page, PAGE, pages + PAGE * below++) != PAGE) return 1;
        print(at[6] + done, page);
    }
    return fflush(stdout) != 0;
}
C
cc -O2 -march=x86-64-v2 -Wall -Werror -o "$folder/plain" "$folder/plain.c"

# Times the read at an address of the file `vmcore`: the bitmap's place and size, the place of the pages, the page's bit.
measure() {
    local ours=("$program" "$folder" 512 read vmcore "$5" 1048576)
    local theirs=("$folder/plain" "$folder/vmcore" "$@")
    cmp <("${ours[@]}") <("${theirs[@]}")
    alternate -- read "${ours[@]}" -- 'plain C' "${theirs[@]}"
}

# Makes the file `vmcore` of an image all of whose pages, so many, are dumped.
make_vmcore() {
    local words length
    "$top/bench/image.sh" "$1" >"$folder/a.img"
    truncate -s 0 "$folder/dumpdev"
    truncate -s $(($1 * 4096 + (1 << 22))) "$folder/dumpdev"
    words=$("$top/crashway" "$folder" 512 dump a.img)
    rm "$folder/a.img"
    length=${words#dumped }
    # The dump stands before the trailing header's block.
    tail -c $((length + 512)) "$folder/dumpdev" | head -c "$length" >"$folder/vmcore"
    rm "$folder/dumpdev"
}

# The numbers, eight bytes each, the lowest first.
put() {
    local number byte
    for number in "$@"; do
        for byte in 0 8 16 24 32 40 48 56; do printf "\\x$(printf %x $((number >> byte & 255)))"; done
    done
}

# Makes a minidump of amd64, version 2, with the largest bitmap: bit i is physical page i, and the last 256 pages are dumped.
make_wide_vmcore() {
    {
        printf 'minidump FreeBSD/amd64\0\0'
        put 2 $((1 << 26 | 4096 << 32)) 0xffffffff80000000 0xfffff80000000000 0xfffffa0000000000
    } >"$folder/vmcore"
    truncate -s $((4096 + (1 << 26) - 32)) "$folder/vmcore"
    head -c 32 /dev/zero | tr '\0' '\377' >>"$folder/vmcore"
    truncate -s $((4096 + (1 << 26) + 4096)) "$folder/vmcore"
    head -c 1048576 "$program" >>"$folder/vmcore"
    truncate -s $((4096 + (1 << 26) + 4096 + (1 << 20))) "$folder/vmcore"
}

truncate -s 512 "$folder/dumpdev"
for size in "${sizes[@]}"; do
    pages=$((size * 256))
    make_vmcore "$pages"
    truncate -s 512 "$folder/dumpdev"
    bitmap=$(((pages / 8 + 4095) / 4096 * 4096))
    memory=$(($(stat -c %s "$folder/vmcore") - 4096 * pages))
    for page in 0 $((pages - 256)); do
        echo "$size MiB, 1 MiB at page $page:"
        # Behind the bitmap there is one page of the directory.
        measure $((memory - 4096 - bitmap)) "$bitmap" "$memory" "$page" "$(printf '0x%x' $((0xffffffd000000000 + 4096 * page)))"
    done
done
make_wide_vmcore
echo 'a bitmap of 64 MiB, its last MiB:'
measure 4096 $((1 << 26)) $((4096 + (1 << 26) + 4096)) $(((1 << 29) - 256)) 0xfffff9fffff00000
