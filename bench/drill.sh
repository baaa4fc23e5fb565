#!/usr/bin/env bash
# `drill` of a machine of 64 MiB that the program makes itself, which reads one page back, beside the commands that it joins:
# `dump`, `savecore` and `read`, each a process of its own. Processor time, peak memory and ratio. The first argument is how
# many runs are timed (11 if it is left out). It needs cc, and 300 MiB of disk.
set -eu
top=$(cd "$(dirname "$0")/.." && pwd)
runs=${1:-11}
folder=$(mktemp -d)
trap 'rm -rf "$folder"' EXIT
. "$top/bench/timing.sh"
program=$top/crates/fd_tool/out/fd_tool
image=@arm64:16376 page='0xffff000000000000 4096'

mkdir "$folder/drill" "$folder/commands"
truncate -s 67108864 "$folder/drill/dumpdev" "$folder/commands/dumpdev"
# The files of the run before are removed, so that each run saves vmcore.0.
# shellcheck disable=SC2016
begin='cd "$1" && rm -f vmcore.0 info.0 bounds'
drill="$begin && exec \"\$0\" . 512 drill $image 1000000 $page"
commands="$begin && \"\$0\" . 512 dump $image && \"\$0\" . 512 savecore && exec \"\$0\" . 512 read vmcore.0 $page"
cmp <(sh -c "$drill" "$program" "$folder/drill") <(sh -c "$commands" "$program" "$folder/commands" | sed 1d)
cmp "$folder/drill/vmcore.0" "$folder/commands/vmcore.0"
alternate -- drill sh -c "$drill" "$program" "$folder/drill" -- 'the commands' sh -c "$commands" "$program" "$folder/commands"
