#!/usr/bin/env bash
# Measures a bill of each line over the largest book: 256 customers, 31 days, 32 subzones, 2,048
# unit rows, and 512 cost rows of the line, spread over as many cells as there are. Prints the
# processor time of one run of the program `bill`, the mean of several. Run `rt run` in crates/bill first.
set -euo pipefail
cd "$(dirname "$0")/.."
bill="$PWD/crates/bill/out/bill"
runs="${1:-20}"
work="$(mktemp -d)"
trap 'rm -rf "$work"' EXIT
for line in 1 2 3 4 5 6 7; do
    python3 - "$line" "$work/file" <<'PY'
import struct, sys
line, out = int(sys.argv[1]), sys.argv[2]
zonal, dated, timed = line in (1, 3, 5), line <= 5, line <= 4
record = lambda body: struct.pack(">H", len(body)) + body
file = b"\x01" + record(struct.pack(">BHBB", 0, 256, 31, 32))
for i in range(2048):
    file += record(struct.pack(">BHBBBBI", 1, i % 256, i % 31 + 1, i // 31 % 24 + 1, i % 32 + 1, (0, 0, 0, 4)[i // 256 % 4], 1 + i))
for i in range(512):
    subzone = i % 32 + 1 if zonal else 0
    day = i // 32 % 31 + 1 if dated else 0
    hour = i % 24 + 1 if timed else 0
    file += record(struct.pack(">BBBBBI", 2, line, subzone, day, hour, 1000 + i))
open(out, "wb").write(file)
PY
    start=$(date +%s%N)
    for _ in $(seq "$runs"); do "$bill" "$line" running <"$work/file" >"$work/bill"; done
    end=$(date +%s%N)
    echo "line $line: $(((end - start) / runs / 1000)) microseconds a run"
done
