#!/usr/bin/env bash
# Writes the file of a machine image to standard output: a riscv machine whose page tables are empty. Without an argument
# it has the six pages of the example in README.md; with a number, so many pages, all of which are wanted, each word its
# own address. It needs cc.
set -eu
folder=$(mktemp -d)
trap 'rm -rf "$folder"' EXIT
cat >"$folder/image.c" <<'C'
#include <stdint.h>
#include <stdio.h>
#include <stdlib.h>
#include <string.h>

static void put(uint64_t number, int bytes) {
    for (; bytes; bytes--, number >>= 8) putchar(number & 255);
}

int main(int count, char **args) {
    const char *texts[] = {"rv", "FreeBSD 14", "test", "panic: test\n"};
    uint64_t given = strtoull(args[1], NULL, 10), pages = given ? given : 6, start = 0x80000000, direct = 0xffffffd000000000;
    (void)count;
    fputs("FD MACHINE IMAGE", stdout);
    put(1, 4), put(3, 4), put(1, 4), put(1, 4), put(given ? pages : 3, 4);
    for (int i = 0; i < 4; i++) put(strlen(texts[i]), 4);
    put(0, 4);
    put(given ? start + 4096 * pages : start, 8), put(0xffffffc000000000, 8), put(0x200000, 8);
    put(direct, 8), put(direct + 4096 * pages, 8), put(start, 8), put(1700000000, 8);
    put(start, 8), put(4096 * pages, 8), put(start, 8), put(start + 4096 * pages, 8);
#define WANTED(page) (given || (page) == 1 || (page) == 2 || (page) == 4)
    for (uint64_t page = 0; page < pages; page++)
        if (WANTED(page)) put(start + 4096 * page, 8);
    for (int i = 0; i < 4; i++) fputs(texts[i], stdout);
    for (uint64_t pa = start; pa < start + 4096 * pages; pa += 8) put(WANTED((pa - start) / 4096) ? pa : 0, 8);
    return ferror(stdout) != 0;
}
C
cc -O2 -o "$folder/image" "$folder/image.c"
"$folder/image" "${1:-0}"
