#!/usr/bin/env bash
# Times `serve` over loopback in one run: how many reads a second one host gets that asks for each after the one before, against a plain
# echo; and how many octets of full records a second it serves, against `answer` on the same capture. Prints the best of five of each.
# Wants python3, and rustc for the peers in peer.rs.
set -u
cd "$(dirname "$0")/.." || exit 1
work=$(mktemp -d) || exit 1
trap 'rm -rf "$work"' EXIT
./eb --version >/dev/null || exit 1
rustc -O --edition 2021 -o "$work/peer" bench/peer.rs || exit 1
python3 - "$work" "$PWD/crates/eb_tools/out/eb_tools" <<'MEASURE'
import json, random, subprocess, sys, time

work, eb = sys.argv[1:]
trips, records = 100_000, 8_000


def product(device, name):
    return {"vendor": 4097, "device": device, "version": 1, "date": 0x20240101, "name": name}


ram = {"kind": "ram", "product": product(16, "ram"), "at": 0, "size": 4096}
root = {"product": product(1, "one"), "last": 0xFFFFF, "sdb": 0x80000, "items": [ram]}
described, capture = f"{work}/one.json", f"{work}/full"
with open(described, "w") as file:
    json.dump({"version": 1, "data": 32, "depth": 4, "masters": 1, "bus": root}, file)


def words(numbers):
    return b"".join(number.to_bytes(4, "big") for number in numbers)


full = bytes.fromhex("880FFFFF") + words([0, *range(255)]) + words([0, *range(0, 1020, 4)])
octets, replies = 4 + records * len(full), 4 + records * (8 + 4 * 255)
with open(capture, "wb") as file:
    file.write(bytes.fromhex("4E6F1044") + full * records)


def asked(server, *host):
    """The seconds of a host that asks this server, which ends after it."""
    port = str(random.randrange(20000, 60000))
    with subprocess.Popen([word.replace("PORT", port) for word in server], stdout=subprocess.DEVNULL) as serving:
        took = subprocess.run([f"{work}/peer", host[0], port, *host[1:]], stdout=subprocess.PIPE, text=True, timeout=120)
        if took.returncode or serving.wait(timeout=120):
            sys.exit(f"{server[0]}: status {serving.returncode}, and of the host {took.returncode}")
    return float(took.stdout)


def answered():
    began = time.monotonic()
    subprocess.run([eb, "answer", described, capture], stdout=subprocess.DEVNULL, check=True)
    return time.monotonic() - began


serve = [eb, "serve", described, "PORT", "1"]
rows = [
    ("reads one after another, serve", trips / 1e3, "thousand a second", lambda: asked(serve, "ask", str(trips))),
    ("octets of reads, plain echo", trips / 1e3, "thousand a second", lambda: asked([f"{work}/peer", "echo", "PORT"], "ask", str(trips))),
    ("full records, serve", octets / 1e6, "MB/s", lambda: asked(serve, "send", capture, str(replies))),
    ("full records, answer", octets / 1e6, "MB/s", answered),
]
for title, amount, unit, measure in rows:
    best = min(measure() for _ in range(5))
    print(f"{title:34} {best:8.3f} s {amount / best:10.1f} {unit}")
MEASURE
