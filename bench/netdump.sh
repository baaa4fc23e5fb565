#!/usr/bin/env bash
# `netdump` of a dump of 56 MB to `netdumpd` over this machine's own network, beside atftp, which puts the same bytes to its
# server in blocks of 4096 with a window of 8; beside atftp whose file is then synced, as netdumpd syncs its own before it
# acknowledges the end; and beside a plain C client and server of the same shape, which read the image whole into fresh memory,
# send each 4096 bytes in a datagram of its own, of which 16 may be unanswered, and write and answer each. Timed by the clock are
# the client from its start to its end, since both sides wait for each other, and the transfer alone, from the client's first
# socket to its end: atftp reads its file meanwhile, where netdump has read and checked its image before. The server's peak memory
# is to be one for all sizes. Prints the median of the runs, the slowest one, and the ratios of the rates.
# The first argument is how many runs are timed (20 if it is left out); TMPDIR says where the files lie. It needs root for a
# network of its own (`unshare`, `ip`), cc, atftp and atftpd, strace, and GNU time as `/usr/bin/time` for the memory.
set -eu
top=$(cd "$(dirname "$0")/.." && pwd)
runs=${1:-20}
if [ -z "${CRASHWAY_ALONE-}" ]; then
    CRASHWAY_ALONE=1 exec unshare --net "$0" "$@"
fi
ip link set lo up
folder=$(mktemp -d)
trap 'kill $(jobs -p) 2>/dev/null; rm -rf "$folder"' EXIT
program=$top/crates/fd_tool/out/fd_tool
# As the script `crashway` starts the program: with large pages for its memory.
export GLIBC_TUNABLES=glibc.malloc.hugetlb=1
mkdir "$folder/client" "$folder/server" "$folder/tftp"
cat >"$folder/plain.c" <<'C'
#define _GNU_SOURCE
#include <arpa/inet.h>
#include <fcntl.h>
#include <stdlib.h>
#include <string.h>
#include <sys/socket.h>
#include <sys/stat.h>
#include <unistd.h>

enum { HEADER = 24, CHUNK = 4096, MOST_UNANSWERED = 16 };

/* serve FILE: writes each chunk at its place, acknowledges it, and at the end syncs the file. */
static int serve(int net, const char *name) {
    static char datagram[HEADER + CHUNK];
    int file = open(name, O_RDWR | O_CREAT | O_TRUNC, 0600);
    struct sockaddr_in peer;
    socklen_t length = sizeof peer;
    for (;;) {
        ssize_t got = recvfrom(net, datagram, sizeof datagram, 0, (void *)&peer, &length);
        if (got < HEADER || file < 0) return 1;
        off_t place;
        memcpy(&place, datagram + 8, 8);
        if (got > HEADER && pwrite(file, datagram + HEADER, got - HEADER, place) != got - HEADER) return 1;
        if (got == HEADER && fsync(file)) return 1;
        if (sendto(net, datagram, 4, 0, (void *)&peer, length) != 4) return 1;
        if (got == HEADER) return 0;
    }
}

/* send IMAGE LENGTH: reads the image whole, and sends so many bytes of its end. */
static int submit(int net, struct sockaddr_in *peer, const char *name, size_t length) {
    struct stat stat;
    int image = open(name, O_RDONLY);
    if (image < 0 || fstat(image, &stat)) return 1;
    size_t size = stat.st_size, done = 0;
    char *bytes = malloc(size), datagram[HEADER + CHUNK] = {0}, answer[64];
    while (done < size) {
        ssize_t now = pread(image, bytes + done, size - done, done);
        if (now <= 0) return 1;
        done += now;
    }
    int unanswered = 0;
    for (size_t place = 0; place <= length; place += CHUNK) {
        size_t piece = place == length ? 0 : CHUNK;
        while (unanswered == MOST_UNANSWERED || (piece == 0 && unanswered > 0)) {
            if (recv(net, answer, sizeof answer, 0) < 0) return 1;
            unanswered--;
            while (unanswered > 0 && recv(net, answer, sizeof answer, MSG_DONTWAIT) >= 0) unanswered--;
        }
        memcpy(datagram + 8, &place, 8);
        memcpy(datagram + HEADER, bytes + size - length + place, piece);
        if (sendto(net, datagram, HEADER + piece, 0, (void *)peer, sizeof *peer) < 0) return 1;
        unanswered++;
    }
    return recv(net, answer, sizeof answer, 0) < 0;
}

int main(int count, char **args) {
    struct sockaddr_in server = {.sin_family = AF_INET, .sin_port = htons(20123), .sin_addr.s_addr = htonl(INADDR_LOOPBACK)};
    int net = socket(AF_INET, SOCK_DGRAM, 0);
    if (count == 2) return bind(net, (void *)&server, sizeof server) || serve(net, args[1]);
    return count != 3 || submit(net, &server, args[1], strtoull(args[2], NULL, 10));
}
C
cc -O2 -Wall -Werror -o "$folder/plain" "$folder/plain.c"
cat >"$folder/touch.c" <<'C'
#include <stdlib.h>
#include <sys/mman.h>

int main(void) {
    size_t length = (size_t)1 << 30;
    char *bytes = mmap(NULL, length, PROT_READ | PROT_WRITE, MAP_PRIVATE | MAP_ANONYMOUS, -1, 0);
    if (bytes == MAP_FAILED || madvise(bytes, length, MADV_HUGEPAGE)) return 1;
    for (size_t at = 0; at < length; at += 4096) bytes[at] = 1;
    return 0;
}
C
cc -O2 -Wall -Werror -D_GNU_SOURCE -o "$folder/touch" "$folder/touch.c"
chmod 777 "$folder" "$folder/tftp"

# The dump's bytes, for atftp.
truncate -s 67108864 "$folder/client/dumpdev"
"$program" "$folder/client" 512 image arm64 16376 a.img >/dev/null
"$program" "$folder/client" 512 dump a.img >/dev/null
dd if="$folder/client/dumpdev" of="$folder/body" bs=512 skip=20847 count=110224 status=none
atftpd --daemon --no-fork --port 6969 --bind-address 127.0.0.1 --user root --group root "$folder/tftp" 2>/dev/null &

# The seconds that a command takes by the clock. The host of a virtual machine may have taken back what memory is free: a gigabyte
# of it is touched before, so that no command pays for that.
seconds() {
    "$folder/touch"
    local from=$EPOCHREALTIME
    "$@" >/dev/null
    local to=$EPOCHREALTIME
    awk "BEGIN { printf \"%.4f\\n\", $to - $from }"
}

# The seconds from a command's first socket to its end. strace stops it at these calls alone.
transfer() {
    "$folder/touch"
    strace -f --seccomp-bpf -ttt -e trace=socket,exit_group -e signal=none -o "$folder/trace" "$@" >/dev/null
    awk '/ socket\(/ && !from { from = $2 } / exit_group\(/ { to = $2 } END { printf "%.4f\n", to - from }' "$folder/trace"
}

# One dump to a server that waits for one, timed as the first argument says. The bytes that came are compared.
one_dump() {
    rm -f "$folder"/server/*
    command time -f %M -o "$folder/peak" "$program" "$folder/server" 512 netdumpd 1 >/dev/null &
    local server=$!
    until grep -q ' 00000000:4E37 ' /proc/net/udp; do sleep 0.01; done
    "$1" "$program" "$folder/client" 512 netdump "$2" 127.0.0.1 >>"$folder/$3"
    wait "$server"
}
put=(atftp --option 'blksize 4096' --option 'windowsize 8' --put --local-file "$folder/body" --remote-file body 127.0.0.1 6969)
put_and_sync() { "${put[@]}" && sync -d "$folder/tftp/body"; }
one_put() {
    local name=$1
    shift
    rm -f "$folder/tftp/body"
    "$@" >>"$folder/$name"
    cmp "$folder/tftp/body" "$folder/body"
}

one_plain() {
    rm -f "$folder/copy"
    "$folder/plain" "$folder/copy" &
    local server=$!
    until grep -q ' 0100007F:4E9B ' /proc/net/udp; do sleep 0.01; done
    seconds "$folder/plain" "$folder/client/a.img" 56434688 >>"$folder/plain_c"
    wait "$server"
    cmp "$folder/copy" <(tail -c 56434688 "$folder/client/a.img")
}

for ((run = 0; run < runs; run++)); do
    one_dump seconds a.img netdump
    cmp "$folder/server/vmcore.0" "$folder/body"
    peak=$(tail -n 1 "$folder/peak")
    one_dump transfer a.img netdump_sends
    cmp "$folder/server/vmcore.0" "$folder/body"
    one_put atftp seconds "${put[@]}"
    one_put atftp_sends transfer "${put[@]}"
    one_put atftp_sync seconds put_and_sync
    one_plain
done
one_dump seconds @arm64:0 small
echo "the server's peak memory: $peak KiB for 56 MB, $(tail -n 1 "$folder/peak") KiB for 61 KB"

# The median and the slowest of some seconds, and the rate.
figures() {
    sort -n "$folder/$1" | awk -v name="$1" '{ all[NR] = $1 } END {
        middle = (all[int((NR + 1) / 2)] + all[int(NR / 2) + 1]) / 2
        printf "%-13s median %.0f ms, slowest %.0f ms, %.0f MB/s\n", name, middle * 1000, all[NR] * 1000, 56.434688 / middle
        print middle >"'"$folder"'/" name ".median" }'
}
# What the first has of the rate of the second.
compare() {
    figures "$2"
    awk -v ours="$(cat "$folder/$1.median")" -v theirs="$(cat "$folder/$2.median")" -v names="$1 has %.2f of the rate of $2" \
        'BEGIN { printf names "\n", theirs / ours }'
}
figures netdump
for other in atftp atftp_sync plain_c; do
    compare netdump "$other"
done
figures netdump_sends
compare netdump_sends atftp_sends
