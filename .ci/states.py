"""states.py PROGRAM ROOM: crash states of the commands that write to the partition. Run by `states`.

A row is a command over a folder. Its calls are recorded by strace, and played over a model of the folder: a write is known to
be whole only where a later sync of its file is done, and a name only where a later sync of the folder is; of all else any
sectors of 512 bytes and any names are there or not, and a file may have its old length or the new one. Behind each call such
states are made: all where they are few, else extreme ones and random ones, the same in each run. Each is put into a folder of
its own, and the program is asked what stands there.
"""

import concurrent.futures
import hashlib
import os
import random
import re
import shutil
import subprocess
import sys

PROGRAM, ROOM = sys.argv[1:]
SECTOR = 512
# How many units, as sectors and names, are tried in each way, and how many random states are made otherwise: more behind
# the last call before a sync, where most is unsynced.
FEW, RANDOM, RANDOM_BEFORE_SYNC = 5, 6, 60

HARMLESS = "openat", "fchmod", "flock", "sync_file_range"
WRITES = "pwrite64", "ftruncate"
SYNCS = "fsync", "fdatasync"
# Calls that change files in ways that the model lacks.
UNKNOWN = """open creat truncate rename renameat renameat2 unlink unlinkat link linkat symlink symlinkat mkdir mkdirat rmdir
    mknod mknodat chmod fchmodat fallocate writev pwritev pwritev2 copy_file_range sendfile splice tee vmsplice sync syncfs
    io_uring_setup io_submit msync""".split()


def run(folder, *words):
    """The status of the program, and what it printed."""
    done = subprocess.run([PROGRAM, folder, *words], stdin=subprocess.DEVNULL, capture_output=True, timeout=60)
    return done.returncode, done.stdout.decode()


def must(folder, *words):
    status, text = run(folder, *words)
    if status:
        sys.exit(f"{words}: status {status}: {text}")


def read_all(folder):
    files = {}
    for name in os.listdir(folder):
        with open(f"{folder}/{name}", "rb") as file:
            files[name] = file.read()
    return files


def write_all(folder, files):
    shutil.rmtree(folder, ignore_errors=True)
    os.mkdir(folder)
    for name, content in files.items():
        with open(f"{folder}/{name}", "wb") as file:
            file.write(content)


# Calls, in the model's words: create NAME, cut NAME LENGTH, write NAME PLACE BYTES, sync NAME, or told, of what is printed. The
# name '' is the folder.


def hex_bytes(text):
    return bytes.fromhex(text.replace("\\x", ""))


def record(folder, words, files):
    """Runs the words over the files, and gives the calls that change or sync them, or print."""
    write_all(folder, files)
    trace = f"{ROOM}/trace"
    calls = ",".join([f"?{name}" for name in (*HARMLESS, *WRITES, *SYNCS, *UNKNOWN)]) + ",write"
    command = ["strace", "-y", "-xx", "-s", "100000000", "-o", trace, "-e", f"trace={calls}", PROGRAM, folder, *words]
    done = subprocess.run(command, stdin=subprocess.DEVNULL, capture_output=True, timeout=60)
    if done.returncode:
        sys.exit(f"{words}: status {done.returncode}: {done.stdout.decode()}{done.stderr.decode()}")
    known = set(files)
    with open(trace) as lines:
        for line in lines:
            if re.match(r"write\(1<", line):
                yield "told", ""
            call = re.match(r"(\w+)\((?:\w+<([^>]*)>)?(.*)\)\s+= (\d+)(?:<([^>]*)>)?", line)
            if call is None:
                continue
            name, path = call[1], hex_bytes(call[5] if call[1] == "openat" else call[2] or "").decode()
            if path != folder and os.path.dirname(path) != folder:
                if name in UNKNOWN:
                    sys.exit(f"{words}: a call that the model lacks: {line[:200]}")
                continue
            file = os.path.basename(path) if path != folder else ""
            yield from changes(name, file, call[3], int(call[4]), known)


def changes(name, file, rest, answer, known):
    """What a call on a file changes, if anything: its name, the file's, its other arguments, and what it answered."""
    if name == "openat":
        if "O_CREAT" in rest and file not in known:
            known.add(file)
            yield "create", file
        elif "O_TRUNC" in rest:
            yield "cut", file, 0
    elif name == "pwrite64":
        data, place = re.fullmatch(r', "([^"]*)", \d+, (\d+)', rest).groups()
        yield "write", file, int(place), hex_bytes(data)[:answer]
    elif name == "ftruncate":
        yield "cut", file, int(rest.split(", ")[1])
    elif name in SYNCS:
        yield "sync", file
    elif name not in HARMLESS:
        sys.exit(f"a call that the model lacks: {name} of {file}{rest[:100]}")


# States.


class File:
    """What is known of a file: its bytes at the last sync, None where it wasn't there; and the calls since then."""

    def __init__(self, content, named):
        self.content, self.named, self.pending = content, named, []

    def units(self, name):
        """What of the calls may be there or not, each as its file, its call and which sector of it."""
        if not self.named:
            yield name, "name", 0
        for number, call in enumerate(self.pending):
            if call[0] == "cut":
                yield name, number, 0
            else:
                place, end = call[1], call[1] + len(call[2])
                for sector in range(place // SECTOR, (end + SECTOR - 1) // SECTOR):
                    yield name, number, sector
        if len(self.whole()) > len(self.content):
            yield name, "length", 0

    def whole(self):
        return self.state(None, None)

    def state(self, name, chosen):
        """The bytes with these units, or with all of them; None where there is no file."""
        if chosen is not None and not self.named and (name, "name", 0) not in chosen:
            return None
        content = bytearray(self.content)
        for number, call in enumerate(self.pending):
            if call[0] == "cut":
                if chosen is None or (name, number, 0) in chosen:
                    content = content[: call[1]].ljust(call[1], b"\0")
                continue
            place, data = call[1:]
            for sector in range(place // SECTOR, (place + len(data) + SECTOR - 1) // SECTOR):
                if chosen is None or (name, number, sector) in chosen:
                    begin, end = max(place, sector * SECTOR), min(place + len(data), (sector + 1) * SECTOR)
                    if len(content) < end:
                        content = content.ljust(end, b"\0")
                    content[begin:end] = data[begin - place : end - place]
        if chosen is not None and (name, "length", 0) in chosen:
            content = content.ljust(len(self.whole()), b"\0")
        return bytes(content)


def play(folder, call):
    """Does a call in the model, a dictionary of files."""
    kind, name = call[:2]
    if kind == "create":
        folder[name] = File(b"", False)
    elif kind == "sync" and name == "":
        for file in folder.values():
            file.named = True
    elif kind == "sync":
        folder[name].content, folder[name].pending = folder[name].whole(), []
    elif kind != "told":
        folder[name].pending.append((kind, *call[2:]))


def choices(units, count, source):
    """Sets of units: all where they are few, else extreme ones and random ones."""
    if len(units) <= FEW:
        for bits in range(1 << len(units)):
            yield {unit for place, unit in enumerate(units) if bits >> place & 1}
        return
    whole = set(units)
    yield set()
    yield whole
    for unit in {units[0], units[-1], *source.sample(units, 4)}:
        yield whole - {unit}
        yield {unit}
    calls = sorted({unit[:2] for unit in units}, key=str)
    for call in calls:
        yield {unit for unit in units if unit[:2] == call}
        yield {unit for unit in units if unit[:2] != call}
    for _ in range(count):
        # Each call has a density of its own, so that whole ones stand beside torn ones.
        density = {call: source.choice((0, 0.1, 0.5, 0.9, 1, 1)) for call in calls}
        yield {unit for unit in units if source.random() < density[unit[:2]]}


def states(calls, files):
    """The states behind each call: what to say of one, whether the work was told by then, and its files."""
    source = random.Random(20231114)
    folder = {name: File(content, True) for name, content in files.items()}
    for number in range(len(calls) + 1):
        if number:
            play(folder, calls[number - 1])
        units = [unit for name, file in folder.items() for unit in file.units(name)]
        is_before_sync = number == len(calls) or calls[number][0] in ("sync", "told")
        for chosen in choices(units, RANDOM_BEFORE_SYNC if is_before_sync else RANDOM, source):
            state = {name: file.state(name, chosen) for name, file in folder.items()}
            last = " ".join(map(str, calls[number - 1][:3])) if number else "none"
            said = f"behind call {number} of {len(calls)}, {last}, with {len(chosen)} of {len(units)} unsynced pieces"
            is_told = ("told", "") in calls[:number]
            yield said, is_told, {name: content for name, content in state.items() if content is not None}


# What the program may say of a state. Each judge gives a word where it may, and None where it may not.


def is_saved_by(folder, body, kept=()):
    """Whether what is found is saved whole, and these files stay as they are."""
    before = read_all(folder)
    status, text = run(folder, *BLOCK, "savecore")
    found = re.fullmatch(r"saved (vmcore\.\d+) (\d+)\n", text)
    if status or found is None or int(found[2]) != len(body):
        return False
    after = read_all(folder)
    return after[found[1]] == body and all(after[name] == before[name] for name in kept)


def tail(partition, length, block):
    """The dump of this length, with its headers."""
    return partition[len(partition) - length - 2 * block :]


def dumped(wholes):
    """Judges a dump: refused, or one of these whole partitions, which are found by the length of their dump."""

    def judge(folder, state):
        status, text = run(folder, *BLOCK, "savecore", "-C")
        if status == 1 and text.startswith("refused "):
            return "refused"
        for word, length, whole in wholes:
            block = int(BLOCK[0])
            if (status, text) == (0, f"dump {length}\n") and tail(state["dumpdev"], length, block) == tail(whole, length, block):
                return word if is_saved_by(folder, tail(whole, length, block)[block:-block]) else None
        return None

    return judge


def saved(before, after, body, kept):
    """Judges a saving: the partition as before, and what stands there saved again; or as after, and the same files."""

    def judge(folder, state):
        status, text = run(folder, *BLOCK, "savecore", "-C")
        if any(state.get(name) != before[name] for name in kept):
            return None
        if status == 0 and text == f"dump {len(body)}\n" and state["dumpdev"] == before["dumpdev"]:
            return "on the partition" if is_saved_by(folder, body, kept) else None
        if status == 1 and text.startswith("refused 3:") and state == after:
            return "in its files"
        return None

    return judge


def try_row(row, words, files, judge_after, end, workers):
    """Tries the states of a row, which ends in one that has the word `end`, and gives how many passed and failed."""
    folder = f"{ROOM}/recorded"
    calls = list(record(folder, [*BLOCK, *words], files))
    judge = judge_after(read_all(folder))

    def tried(numbered):
        number, (said, is_told, state) = numbered
        place = f"{ROOM}/state{number}"
        write_all(place, state)
        word = judge(place, state)
        shutil.rmtree(place)
        return said, word if word == end or not is_told else None

    unlike = {}
    for said, is_told, state in states(calls, files):
        key = hashlib.sha256(repr((is_told, sorted(state.items()))).encode()).digest()
        unlike.setdefault(key, (said, is_told, state))
    words, bad = {}, []
    for said, word in workers.map(tried, enumerate(unlike.values())):
        if word is None:
            bad.append(said)
        else:
            words[word] = words.get(word, 0) + 1
    for said in bad[:5]:
        print(f"FAILED: {row}: {said}")
    counts = ", ".join(f"{count} {word}" for word, count in sorted(words.items()))
    print(f"{row}: {len(calls)} calls, {len(unlike)} states: {counts}, {len(bad)} not allowed")
    # Where nothing was told, or the end not reached, the states say nothing of it.
    if ("told", "") not in calls or end not in words:
        print(f"FAILED: {row}: its end")
        bad.append(row)
    return sum(words.values()), len(bad)


BLOCK = ("512",)
SIZE = 131072
LARGE, SMALL = "@riscv:0", "@arm64:0"


def main():
    global BLOCK
    made = {}
    for name, image in ("old", LARGE), ("new", SMALL):
        folder = f"{ROOM}/{name}"
        write_all(folder, {"dumpdev": bytes(SIZE)})
        must(folder, *BLOCK, "dump", image)
        _, text = run(folder, *BLOCK, "savecore", "-C")
        made[name] = read_all(folder)["dumpdev"], int(text.split()[1])
    old, old_length = made["old"]
    new, new_length = made["new"]
    body = tail(old, old_length, 512)[512:-512]
    # A dump that was saved before, and what is known of it.
    must(f"{ROOM}/new", *BLOCK, "savecore")
    earlier = read_all(f"{ROOM}/new")
    cleared = earlier.pop("dumpdev")
    both = [("old", old_length, old), ("new", new_length, new)]
    live = {**earlier, "dumpdev": old}

    passed = failed = 0
    with concurrent.futures.ThreadPoolExecutor(os.cpu_count()) as workers:

        def row(*given):
            nonlocal passed, failed
            good, bad = try_row(*given, workers)
            passed, failed = passed + good, failed + bad

        def whole(after):
            return dumped([("whole", old_length, after["dumpdev"])])

        row("dump", ["dump", LARGE], {"dumpdev": bytes(SIZE)}, whole, "whole")
        row("dump over a cleared one", ["dump", LARGE], {"dumpdev": cleared}, whole, "whole")
        row("dump -i over another", ["dump", "-i", SMALL], {"dumpdev": old}, lambda after: dumped(both), "new")
        row("savecore", ["savecore"], live, lambda after: saved(live, after, body, earlier.keys() - {"bounds"}), "in its files")
        row("savecore -m 1", ["savecore", "-m", "1"], live, lambda after: saved(live, after, body, ()), "in its files")
        BLOCK = ("4096",)
        row("dump of large blocks", ["dump", LARGE], {"dumpdev": bytes(2 * SIZE)}, whole, "whole")
    print(f"{passed} passed, {failed} failed")
    return failed != 0


sys.exit(main())
