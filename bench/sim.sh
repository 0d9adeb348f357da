#!/usr/bin/env bash
# Times sim.rs, clock by clock, on a script of 256 lines with 4,096 operations of 16 masters on 8 RAMs, in two forms: every line
# ends its cycle, so that masters on different RAMs go on side by side, and every fourth line does, so that one has the whole bus.
# Prints for each, without the wave and with it, the best of twenty runs in milliseconds and the clocks of the wave.
# Wants python3 and rustc. A program named in the words, which takes the same words, is run beside it and its output compared.
set -u
cd "$(dirname "$0")/.." || exit 1
work=$(mktemp -d) || exit 1
trap 'rm -rf "$work"' EXIT
rustc -O --edition 2021 -o "$work/plain" bench/sim.rs || exit 1

python3 - "$work" "$work/plain" "$@" <<'MEASURE'
import json, random, subprocess, sys, time

work, programs = sys.argv[1], sys.argv[2:]


def product(device, name):
    return {"vendor": 4097, "device": device, "version": 1, "date": 0x20240101, "name": name}


items = [{"kind": "ram", "product": product(16, f"ram-{i}"), "at": 0x1000 * i, "size": 4096, "wait": i % 4} for i in range(8)]
root = {"product": product(1, "eight"), "last": 0xFFFFF, "sdb": 0x80000, "items": items}
described = f"{work}/eight.json"
with open(described, "w") as file:
    json.dump({"version": 1, "data": 32, "depth": 4, "masters": 16, "bus": root}, file)


def script(name, group):
    draws = random.Random(1)
    with open(f"{work}/{name}", "w") as file:
        for line in range(256):
            master, ram = line % 16, draws.randrange(8)
            words = [f"{0x1000 * ram + 4 * draws.randrange(1024):X}" for _ in range(16)]
            ops = [f"w{word}={draws.randrange(2**32):X}" if draws.random() < 0.5 else f"r{word}" for word in words]
            mark = "end" if line // 16 % group == group - 1 else "hold"
            file.write(f"{master} {draws.randrange(200)} {mark} {' '.join(ops)}\n")
    return f"{work}/{name}"


def measured(command):
    best, output = None, None
    for _ in range(20):
        began = time.monotonic()
        output = subprocess.run(command, stdout=subprocess.PIPE, check=True).stdout
        seconds = time.monotonic() - began
        best = seconds if best is None else min(best, seconds)
    return best, output


for title, name in [("each line a cycle", script("short", 1)), ("four lines a cycle", script("long", 4))]:
    for wave in [[], ["--wave"]]:
        print(title + (", with the wave" if wave else ""))
        outputs = set()
        for program in programs:
            best, output = measured([program, "sim", described, name, *wave])
            outputs.add(output)
            clocks = f"{output.count(b' h '):8} clocks" if wave else ""
            print(f"  {program.split('/')[-1]:10} {1000 * best:8.2f} ms {clocks}")
        if len(outputs) > 1:
            print("  the outputs differ")
MEASURE
