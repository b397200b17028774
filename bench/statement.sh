#!/usr/bin/env bash
# Measures the statement of the largest file: 256 customers, 31 days, 32 subzones, 2,048 unit rows,
# and 512 cost rows spread over the seven lines and over many subzones, days and hours; beside it a
# plain C program of the same job, bench/statement.c. Checks that both print the same bytes, and
# prints the processor time of one run of each, the mean of several that take turns, and the ratio.
# Run `rt run` in crates/statement first.
set -euo pipefail
cd "$(dirname "$0")/.."
statement="$PWD/crates/statement/out/statement"
runs="${1:-200}"
work="$(mktemp -d)"
trap 'rm -rf "$work"' EXIT
cc -O2 -Wall -Wextra -o "$work/plain" bench/statement.c
python3 - "$work/file" "$statement" "$work/plain" "$runs" <<'PY'
import os, struct, subprocess, sys
out, statement, plain, runs = sys.argv[1], sys.argv[2], sys.argv[3], int(sys.argv[4])
record = lambda body: struct.pack(">H", len(body)) + body
file = b"\x01" + record(struct.pack(">BHBB", 0, 256, 31, 32))
units = []
for i in range(2048):
    units.append((i % 31 + 1, i // 31 % 24 + 1, i * 7 // 5 % 32 + 1))
    day, hour, subzone = units[i]
    use = (0, 0, 1, 2, 0, 3, 0, 4)[i // 256]
    file += record(struct.pack(">BHBBBBI", 1, i % 256, day, hour, subzone, use, 1000 + i))
for i in range(512):
    line = i % 7 + 1
    day, hour, subzone = units[i * 4 % 2048]
    subzone = subzone if line in (1, 3, 5) else 0
    day = day if line <= 5 else 0
    hour = hour if line <= 4 else 0
    file += record(struct.pack(">BBBBBI", 2, line, subzone, day, hour, 100000 + 17 * i))
open(out, "wb").write(file)

def run(program):
    with open(out, "rb") as given:
        return subprocess.run([program], stdin=given, capture_output=True)

def processor_time(program):
    pid = os.posix_spawn(
        program, [program], {},
        file_actions=[(os.POSIX_SPAWN_OPEN, 0, out, os.O_RDONLY, 0), (os.POSIX_SPAWN_OPEN, 1, "/dev/null", os.O_WRONLY, 0)],
    )
    _, status, usage = os.wait4(pid, 0)
    assert status == 0
    return usage.ru_utime + usage.ru_stime

made, expected = run(statement), run(plain)
if made.returncode != 0 or expected.returncode != 0 or made.stdout != expected.stdout:
    sys.exit("the two programs do not print the same bytes")
totals = {statement: 0.0, plain: 0.0}
for _ in range(runs):
    for program in totals:
        totals[program] += processor_time(program)
mine, other = totals[statement] / runs * 1e6, totals[plain] / runs * 1e6
print(f"file: {len(file)} bytes; statement: {len(made.stdout)} bytes, the same from both")
print(f"statement: {mine:.0f} microseconds of processor time a run, mean of {runs}")
print(f"plain C:   {other:.0f} microseconds of processor time a run, mean of {runs}")
print(f"ratio:     {mine / other:.2f}")
PY
