#!/usr/bin/env bash
# Times the built program on large captures, a generated load and a large description, and plain.rs on the same, in one run:
# without a journal of the cycles, as `eb` does it, and with one.
# Prints for each the best of three runs: seconds, those of a processor, which other work on the machine changes less, octets
# of the capture a second, and the greatest memory held, which is never less than what this script itself holds, about 20 MiB.
# Wants python3, and rustc for plain.rs, which is passed over where there is none.
set -u
cd "$(dirname "$0")/.." || exit 1
work=$(mktemp -d) || exit 1
trap 'rm -rf "$work"' EXIT

./eb --version >/dev/null || exit 1
programs=("$PWD/crates/eb_tools/out/eb_tools")
if command -v rustc >/dev/null && rustc -O --edition 2021 -o "$work/plain" bench/plain.rs; then
  programs+=("$work/plain")
fi

python3 - "$work" "${programs[@]}" <<'MEASURE'
import hashlib, json, os, subprocess, sys, time

work, programs = sys.argv[1], sys.argv[2:]
size = 64 * 2**20


def capture(name, record):
    with open(f"{work}/{name}", "wb") as file:
        file.write(bytes.fromhex("4E6F1044"))
        for _ in range(size // len(record) // 1000):
            file.write(record * 1000)
    return f"{work}/{name}"


def words(numbers):
    return b"".join(number.to_bytes(4, "big") for number in numbers)


full = bytes.fromhex("880FFFFF") + words([0, *range(255)]) + words([0, *range(0, 1020, 4)])
small = bytes.fromhex("880F0101") + words([0x20, 1]) + words([0, 0x20])


def product(device, name):
    return {"vendor": 4097, "device": device, "version": 1, "date": 0x20240101, "name": name}


def bridge(at, last, items):
    bus = {"product": product(33, "inner"), "last": last, "sdb": last + 1 - 0x2000, "items": items}
    return {"kind": "bridge", "product": product(32, "bridge"), "at": at, "bus": bus}


def ram(at):
    return {"kind": "ram", "product": product(16, "ram"), "at": at, "size": 4096}


# The RAM at 0 first, then 62 buses of 65 records each: 4,094 records with those of the root.
empty = {"kind": "empty"}
inner = [ram(0), ram(0x1000)] + [empty] * 62
items = [ram(0)] + [bridge(0x10000 * (i + 1), 0xFFFF, inner) for i in range(62)]
root = {"product": product(1, "root"), "last": 0xFFFFFF, "sdb": 0x800000, "items": items}
described = f"{work}/described.json"
with open(described, "w") as file:
    json.dump({"version": 1, "data": 32, "depth": 4, "masters": 1, "bus": root}, file)


def measured(command, octets):
    best, spent, held, outputs = None, None, 0, None
    for _ in range(3):
        with open(f"{work}/out", "wb") as out:
            began = time.monotonic()
            child = subprocess.Popen(command, stdout=out, stdin=subprocess.DEVNULL)
            _, status, usage = os.wait4(child.pid, 0)
            seconds = time.monotonic() - began
        if status:
            return f"status {os.waitstatus_to_exitcode(status)}", None
        used = usage.ru_utime + usage.ru_stime
        best = seconds if best is None else min(best, seconds)
        spent = used if spent is None else min(spent, used)
        held = max(held, usage.ru_maxrss)
    digest = hashlib.sha256()
    with open(f"{work}/out", "rb") as out:
        while piece := out.read(2**20):
            digest.update(piece)
    outputs = digest.digest()
    speed = f"{octets / best / 1e6:9.1f} MB/s" if octets else " " * 14
    return f"{best:8.3f} s {spent:8.3f} s {speed} {held / 1024:8.1f} MiB", outputs


runs = [
    ("answer --ram, records of 255 writes and 255 reads", ["answer", "--ram", "4096", capture("full", full)], size),
    ("answer --ram, records of a write and a read", ["answer", "--ram", "4096", capture("small", small)], size),
    ("answer DESC, records of a write and a read", ["answer", described, f"{work}/small"], size),
    ("build DESC, 4,094 records", ["build", described], 0),
    ("tour DESC, 4,094 records", ["tour", described], 0),
    ("load 1 100000", ["load", "1", "100000"], 0),
]
for title, command, octets in runs:
    print(title)
    seen = set()
    runs_of = [("eb", programs[:1])]
    if len(programs) > 1:
        runs_of += [("plain", programs[1:]), ("journal", [*programs[1:], "--journal"])]
    for name, program in runs_of:
        line, output = measured([*program, *command], octets)
        seen.add(output)
        print(f"  {name:10} {line}")
    if len(seen) > 1:
        print("  the outputs differ")
MEASURE
