#!/usr/bin/env bash
# Times captures that are replayed beside each other, a thread each, on four RAMs of one bus: one alone, as `answer` and as `replay`,
# and four at once, each on a RAM of its own and all on the same. A capture has 1 MiB of records of a write and a read, each of which
# is a cycle. Prints for each the best of five runs: seconds, those of all processors together, and the greatest memory held.
# Wants python3.
set -u
cd "$(dirname "$0")/.." || exit 1
work=$(mktemp -d) || exit 1
trap 'rm -rf "$work"' EXIT
./eb --version >/dev/null || exit 1
python3 - "$work" "$PWD/crates/eb_tools/out/eb_tools" <<'MEASURE'
import json, os, subprocess, sys, time

work, eb = sys.argv[1:]


def product(device, name):
    return {"vendor": 4097, "device": device, "version": 1, "date": 0x20240101, "name": name}


items = [{"kind": "ram", "product": product(16, f"ram-{i}"), "at": 0x1000 * i, "size": 4096} for i in range(4)]
root = {"product": product(1, "four"), "last": 0xFFFFF, "sdb": 0x80000, "items": items}
described = f"{work}/four.json"
with open(described, "w") as file:
    json.dump({"version": 1, "data": 32, "depth": 4, "masters": 4, "bus": root}, file)


def capture(ram):
    record = bytes.fromhex("880F0101") + b"".join(n.to_bytes(4, "big") for n in [0x1000 * ram + 0x20, 1, 0, 0x1000 * ram + 0x20])
    with open(f"{work}/{ram}", "wb") as file:
        file.write(bytes.fromhex("4E6F1044") + record * (2**20 // len(record)))
    return f"{work}/{ram}"


captures = [capture(ram) for ram in range(4)]


def measured(title, command):
    best, spent, held = None, None, 0
    for _ in range(5):
        with open(f"{work}/out", "wb") as out:
            began = time.monotonic()
            child = subprocess.Popen([eb, *command], stdout=out, stdin=subprocess.DEVNULL)
            _, status, usage = os.wait4(child.pid, 0)
            seconds = time.monotonic() - began
        if status:
            sys.exit(f"{title}: status {os.waitstatus_to_exitcode(status)}")
        used = usage.ru_utime + usage.ru_stime
        best = seconds if best is None else min(best, seconds)
        spent = used if spent is None else min(spent, used)
        held = max(held, usage.ru_maxrss)
    octets = os.path.getsize(f"{work}/out")
    print(f"{title:40} {best:8.3f} s {spent:8.3f} s {held / 1024:8.1f} MiB, {octets / 2**20:6.1f} MiB written")


measured("answer, one capture", ["answer", described, captures[0]])
measured("replay, one capture", ["replay", described, captures[0]])
measured("replay, four on four RAMs", ["replay", described, *captures])
measured("replay, four on one RAM", ["replay", described, *captures[:1] * 4])
MEASURE
