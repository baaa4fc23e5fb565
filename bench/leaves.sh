#!/usr/bin/env bash
# The time of one walk of a range's leaves, by the gigabytes of the range and by the pages of the generated AMD64 image
# whose tables are walked, beside two plain C programs over the same tables:
#   nested  goes through the entries of each table that it comes to, by one call a table
#   lookup  looks each page of the range up from the topmost table; ranges of up to 16 GiB alone
# All three print what they met, and that has to be the same.
#
# Microseconds of the processor for one walk: the least of several runs with many walks, less the least of as many runs
# without any, by the number of walks. So neither the start of a program nor the building of its tables is in a figure.
#
# The first argument is how many runs are timed (7 if it is left out). It needs cc and python3.
set -eu
top=$(cd "$(dirname "$0")/.." && pwd)
runs=${1:-7}
folder=$(mktemp -d)
trap 'rm -rf "$folder"' EXIT

(cd "$top/crates/fd_bench" && rt run -- leaves 0 1 1) >"$folder/build.log" 2>&1 || {
    cat "$folder/build.log"
    exit 1
}

cat >"$folder/plain.c" <<'C'
#include <inttypes.h>
#include <stdio.h>
#include <stdlib.h>
#include <string.h>

static const uint64_t window = 0xfffffe0000000000, address = 0x000ffffffffff000, present = 1, large = 0x80;
static uint64_t *words, tables, room, leaves, sum;

static uint64_t add_table(void) {
    if (tables == room) {
        room = room ? 2 * room : 64;
        words = realloc(words, room * 4096);
        if (!words) exit(71);
    }
    memset(words + tables * 512, 0, 4096);
    return tables++ * 4096;
}

static uint64_t place(uint64_t table, uint64_t va, int height) {
    return table / 8 + (va >> (12 + 9 * height) & 511);
}

static void map(uint64_t va, uint64_t pa) {
    uint64_t table = 0;
    for (int height = 3; height > 0; height--) {
        uint64_t at = place(table, va, height);
        if (!words[at]) {
            uint64_t added = add_table();
            words[at] = added | present;
        }
        table = words[at] & address;
    }
    words[place(table, va, 0)] = pa | present;
}

static void meet(uint64_t bits) {
    leaves++;
    sum += bits & address;
}

static void nested(uint64_t table, int height, uint64_t va, uint64_t last) {
    uint64_t size = (uint64_t)1 << (12 + 9 * height);
    for (;;) {
        uint64_t bits = words[place(table, va, height)], end = va | (size - 1);
        if (bits & present) {
            if (height == 0 || bits & large) meet(bits);
            else nested(bits & address, height - 1, va, end < last ? end : last);
        }
        if (end >= last) return;
        va = end + 1;
    }
}

/* the bytes from here on that the look-up tells of */
static uint64_t lookup(uint64_t va) {
    uint64_t table = 0;
    for (int height = 3;; height--) {
        uint64_t bits = words[place(table, va, height)];
        if (!(bits & present)) return 4096;
        if (height == 0 || bits & large) {
            meet(bits);
            return (uint64_t)4096 << 9 * height;
        }
        table = bits & address;
    }
}

/* The tables of a generated image: two of three pages of its data are mapped, and 2 MiB behind all of them. */
static void map_data(uint64_t pages) {
    for (uint64_t page = 0; page < pages; page++) {
        uint64_t second = page >= pages / 2, start = second ? 0xa0000000 : 0x90000000;
        if (page % 3 != 2) map(window + 4096 * page, start + 4096 * (second ? page - pages / 2 : page));
    }
    uint64_t table = 0, last = window + ((pages + 511) / 512 << 21);
    for (int height = 3; height > 1; height--) table = words[place(table, last, height)] & address;
    words[place(table, last, 1)] = 0x90000000 | large | present;
}

int main(int count, char **args) {
    if (count != 5) return 64;
    uint64_t number = strtoull(args[2], 0, 10), bytes = strtoull(args[3], 0, 10) << 30, rounds = strtoull(args[4], 0, 10);
    add_table();
    map_data(8 + number % 16384);
    for (; rounds; rounds--) {
        if (!strcmp(args[1], "nested")) nested(0, 3, window, window + (bytes - 1));
        else
            for (uint64_t at = 0, met = 0; at < bytes; at += met) met = lookup(window + at);
    }
    printf("%" PRIu64 " leaves, their addresses add up to %" PRIu64 "\n", leaves, sum);
}
C
cc -O2 -o "$folder/plain" "$folder/plain.c"

python3 - "$runs" "$top/crates/fd_bench/out/fd_bench" "$folder/plain" <<'PY'
import math, os, subprocess, sys

runs, ours, plain = int(sys.argv[1]), sys.argv[2], sys.argv[3]
# Gigabytes of the range, and pages of data of the image.
SIZES = [(gigabytes, pages) for pages in (8, 1000, 10_000, 16_384) for gigabytes in (1, 16, 256, 1024)]
WALKS = [
    (walker, size)
    for size in SIZES
    for walker in ("fd_walk", "nested", "lookup")
    if walker != "lookup" or size[0] <= 16
]


def words(walker, size, rounds):
    command = [ours, "leaves"] if walker == "fd_walk" else [plain, walker]
    gigabytes, pages = size
    return command + [str(number) for number in (pages - 8, gigabytes, rounds)]


def text(walker, size):
    return subprocess.run(words(walker, size, 1), capture_output=True, check=True).stdout


def seconds(command):
    process = subprocess.Popen(command, stdout=subprocess.DEVNULL)
    _, status, used = os.wait4(process.pid, 0)
    process.returncode = os.waitstatus_to_exitcode(status)
    assert process.returncode == 0, command
    return used.ru_utime + used.ru_stime


# So many walks that they take some hundredths of a second or more, by the entries that a walk looks at.
def many(walker, size):
    gigabytes, pages = size
    if walker == "lookup":
        return 64 // gigabytes
    entries = pages + 1500
    return (8_000_000 if walker == "fd_walk" else 40_000_000) // entries + 1


for walker, size in WALKS:
    assert text(walker, size) == text("fd_walk", size), (walker, size)

# Each run times all walks, so that no walk has all its runs in a busy moment of the machine.
least = {}
for _ in range(runs):
    for walker, size in WALKS:
        for rounds in 0, many(walker, size):
            used = seconds(words(walker, size, rounds))
            least[walker, size, rounds] = min(used, least.get((walker, size, rounds), math.inf))

print("  pages   GiB   fd_walk us   nested us   ratio   lookup us")
for size in SIZES:
    time = {}
    for walker in (walker for walker, timed in WALKS if timed == size):
        rounds = many(walker, size)
        time[walker] = (least[walker, size, rounds] - least[walker, size, 0]) / rounds * 1e6
    gigabytes, pages = size
    line = f"{pages:7} {gigabytes:5} {time['fd_walk']:12.3f} {time['nested']:11.3f}"
    line += f" {time['fd_walk'] / time['nested']:7.1f}"
    if "lookup" in time:
        line += f" {time['lookup']:11.0f}"
    print(line)
PY
