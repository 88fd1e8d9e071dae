#!/bin/sh
# The time and the instructions of `eliminate` on the matrices of four key equations, over polynomials in n:
#   franel  of the sum of binomial(n,k)^3 at order 2: 7 rows, 7 columns
#   apery   of the sum of binomial(n,k)^2*binomial(n+k,k)^2 at order 2: 5 rows, 6 columns
#   dixon   of Dixon's pair: 7 rows, 6 columns
#   sixth   of the sum of binomial(n,k)^6 at order 3: 19 rows, 18 columns
# Wanted: franel under 1.2 million instructions. The program is bench/elimination.txt. The matrices are in bench/matrices.txt: a name with the
# first column that may be free, and then a row for each power of k, from the greatest down: entries between commas, with the coefficients
# of each from power 0 of n up.
. "$(dirname "$0")/crates.sh"
copied timed elimination "ring_laws poly_generic fraction_free either" \
    ring_solver ring_laws poly_laws kernel_laws poly_generic poly_divide whole_roots reducing fraction_free
mkdir -p "$work/timed/crates/elimination/proofs/are_of_width" || exit 1
cat >"$work/timed/crates/elimination/proofs/are_of_width/Invariants.antt" <<'ANTT'
use Rattle.std.proofs.Common.{◌≡◌, ◌<◌, length, ℕ, get_or}
use Rattle.elimination.proofs.are_of_width.Given as goal

-- each row behind the loop has the width
abbrev pub invariant-loop-at : goal.invariant-loop-at
invariant-loop-at l = (k : ℕ) (d : _) → k < l.at → length (get_or l.rows k d).items ≡ l.width
ANTT
built timed elimination 0 0 1

exec python3 - "$work/timed/crates/elimination/out/elimination" "$here/bench/matrices.txt" <<'PY'
import re, statistics, subprocess, sys, time

matrices = {}
for block in open(sys.argv[2]).read().split("\n\n"):
    head, *rows = block.split("\n")
    name, first = head.split()
    matrices[name] = (first, ";".join(row for row in rows if row))

def command(way, count):
    first, rows = matrices[way]
    return [sys.argv[1], first, str(count), rows]

def seconds(way, count):
    start = time.perf_counter()
    subprocess.run(command(way, count), check=True)
    return time.perf_counter() - start

def instructions(way, count):
    tool = ["valgrind", "--tool=callgrind", "--callgrind-out-file=/dev/null"]
    run = subprocess.run(tool + command(way, count), check=True, capture_output=True, text=True)
    return int(re.search(r"Collected : (\d+)", run.stderr).group(1))

for way, times in (("franel", 40), ("apery", 40), ("dixon", 40), ("sixth", 4)):
    length = statistics.median((seconds(way, times) - seconds(way, 0)) / times for _ in range(9))
    counted = instructions(way, 2) - instructions(way, 1)
    print("%-6s  %7.2f ms  %7.2f million instructions" % (way, length * 1e3, counted / 1e6))
PY
