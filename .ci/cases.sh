# Sourced by the scripts beside it, with `top` and `program` set: cases over the built program, in a folder `room`. A case
# compares the status, all of standard output, and what was said on standard error: one line where the status is 71 or 74,
# else nothing. The program is built where that wasn't done.
[ -x "$program" ] || "$top/crashway" . 512 savecore -C >/dev/null
room=$(mktemp -d) || exit 1
trap 'rm -rf "$room"' EXIT
cp "$program" "$room/crashway" || exit 1
program=$room/crashway
passed=0 failed=0

# Counts the case NAME: passed where the command that follows it gives true.
count() {
    if "${@:2}"; then
        passed=$((passed + 1))
    else
        failed=$((failed + 1))
        echo "FAILED: $1"
    fi
}

skip() { echo "skipped: $1: needs $2"; }

# What stands before the program: nothing, or how to be another user.
as=()

# Runs the program with the words given.
run() {
    timeout 60 "${as[@]}" "$program" "$@" >"$room/out" 2>"$room/err"
    status=$?
}


# Whether the last run ended with this status, printed this text, and said this on standard error.
ended() {
    if [ "$status" = "$1" ] && printf "$2" | cmp -s - "$room/out" && printf "${3:+crashway: $3\n}" | cmp -s - "$room/err"; then
        return
    fi
    echo "status $status, not $1; printed, and said:"
    head -c 300 "$room/out" "$room/err"
    return 1
}

# try NAME STATUS TEXT SAID WORDS..
try() {
    local name=$1 wanted=("${@:2:3}")
    run "${@:5}"
    count "$name" ended "${wanted[@]}"
}

# What the files of a folder are: their bytes, sizes and times of change.
state() { (cd "$1" && find . -printf '%p %y %s %T@ %C@\n' | sort && find . -type f -readable -exec cksum {} + | sort); }

# Makes a folder with a partition of this many bytes.
folder() {
    mkdir -p "$room/$1"
    truncate -s "$2" "$room/$1/dumpdev"
}
