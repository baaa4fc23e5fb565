#!/usr/bin/env bash
# Dumps over a network that loses 20 of 100 datagrams in each direction, repeats 10 and holds back 20: sixteen clients at once
# against one server, again and again. Each client that ends with 0 has to have its dump among the server's files, whole and
# synced, and none may be reported that isn't. The first argument is how many dumps are tried (96 if it is left out), the
# second how many of 100 are lost, the third the seed. It needs root for networks of its own (`unshare`, `ip`), and python3.
set -eu
top=$(cd "$(dirname "$0")/.." && pwd)
dumps=${1:-96}
loss=${2:-20}
seed=${3:-1}
if [ -z "${CRASHWAY_ALONE-}" ]; then
    CRASHWAY_ALONE=1 exec unshare --net "$0" "$@"
fi
ip link set lo up
folder=$(mktemp -d)
trap 'kill $(jobs -p) 2>/dev/null; rm -rf "$folder"' EXIT
program=$top/crates/fd_tool/out/fd_tool
mkdir "$folder/client"
done_=0 silent=0 false=0 tried=0

while [ "$tried" -lt "$dumps" ]; do
    rm -rf "$folder/server" && mkdir "$folder/server"
    # The server has a network of its own, since both it and the proxy listen at one port. Its turns go on until it is ended.
    unshare --net sh -c 'ip link set lo up && exec "$0" "$@"' "$program" "$folder/server" 512 netdumpd 16 >/dev/null &
    server=$!
    for _ in {1..500}; do
        grep -q ' 00000000:4E37 ' "/proc/$server/net/udp" 2>/dev/null && break
        sleep 0.01
    done
    python3 "$top/bench/lossy.py" "$server" "$loss" $((seed + tried)) >"$folder/proxy" &
    proxy=$!
    until grep -qs ready "$folder/proxy"; do sleep 0.01; done
    clients=()
    for ((i = 0; i < 16; i++)); do
        # Each sends another machine's dump, so that its file is known among the server's.
        "$program" "$folder/client" 512 netdump "@riscv:$((16384 * (tried + i)))" 127.0.0.1 >"$folder/said.$i" 2>/dev/null &
        clients[i]=$!
    done
    for ((i = 0; i < 16; i++)); do
        if wait "${clients[i]}"; then
            truncate -s 0 "$folder/client/dumpdev" && truncate -s 131072 "$folder/client/dumpdev"
            "$program" "$folder/client" 512 dump "@riscv:$((16384 * (tried + i)))" >/dev/null
            dd if="$folder/client/dumpdev" of="$folder/wanted" bs=512 skip=135 count=120 status=none
            found=0
            for info in "$folder"/server/info.*; do
                cmp -s "$folder/wanted" "$folder/server/vmcore.${info##*.}" && grep -q '^  Dump Status: good$' "$info" && found=1
            done
            if [ "$found" = 1 ]; then done_=$((done_ + 1)); else false=$((false + 1)); fi
        else
            silent=$((silent + 1))
        fi
    done
    tried=$((tried + 16))
    # A server that has all its dumps has ended by itself.
    kill "$server" "$proxy" 2>/dev/null || true
    wait "$server" "$proxy" 2>/dev/null || true
done
echo "of $tried dumps $done_ were sent and are whole, $silent were given up, $false were falsely reported"
[ "$false" = 0 ]
