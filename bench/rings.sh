#!/bin/sh
# The time and the instructions of a product of two polynomials in k and n, of 20 by 20 coefficients of 20 bits, made in four ways:
#   polys       `mul` as it is: a cheap test spares the product of the magnitudes
#   magnitudes  `mul` without that test: the product of the magnitudes decides each time
#   numbers     the same products of lists with no bound checked but that of each number
#   free        the same products of lists of numbers that wrap, with no bound at all
# and then of a difference of the two, of a shift of the first by 1 in k, and of the quotient of their product by the second.
# Wanted: `polys` at most 1.3 times as long as a product without any bound check.
# The program is bench/products.txt. It is built twice in a folder of its own, over a copy of the crates below it; that proves them first.
. "$(dirname "$0")/crates.sh"
copied tested products "ring_laws poly_generic" ring_solver ring_laws poly_laws poly_generic
built tested products polys 0

# A test that never says yes needs no proof.
cp -r "$work/tested" "$work/untested"
rm -r "$work/untested/crates/poly_generic/proofs/polys/Poly/is_product_surely_in_bounds" || exit 1
sed -i '/self.list.len() + other.list.len() <= 257/,/is_surely_in_bounds(alloc, &self.list/c\        false' \
    "$work/untested/crates/poly_generic/src/products.rt"
built untested products polys 0

exec python3 - "$work" <<'PY'
import re, subprocess, sys, time

work = sys.argv[1]
ways = [("polys", "tested", "polys"), ("magnitudes", "untested", "polys"), ("numbers", "tested", "numbers"), ("free", "tested", "free")]

def command(folder, way, count):
    return ["%s/%s/crates/products/out/products" % (work, folder), way, str(count)]

# the least of nine runs, since a busy machine only adds to it
def seconds(words):
    times = []
    for _ in range(9):
        start = time.perf_counter()
        subprocess.run(words, check=True)
        times.append(time.perf_counter() - start)
    return min(times)

def instructions(words):
    tool = ["valgrind", "--tool=callgrind", "--callgrind-out-file=/dev/null"]
    run = subprocess.run(tool + words, check=True, capture_output=True, text=True)
    return int(re.search(r"Collected : (\d+)", run.stderr).group(1))

# the time and the instructions of one
def measured(folder, way):
    length = (seconds(command(folder, way, 20)) - seconds(command(folder, way, 0))) / 20
    return length, instructions(command(folder, way, 2)) - instructions(command(folder, way, 1))

figures = {}
for name, folder, way in ways:
    figures[name] = measured(folder, way)
for name, (length, counted) in figures.items():
    ratios = ["%.2f and %.2f of %s" % (length / figures[other][0], counted / figures[other][1], other) for other in ("numbers", "free")]
    print("%-10s  %6.2f ms  %6.2f million instructions  (%s)" % (name, length * 1e3, counted / 1e6, ", ".join(ratios)))
for way in ("differences", "shifts", "quotients"):
    length, counted = measured("tested", way)
    print("%-11s %6.2f ms  %6.2f million instructions" % (way, length * 1e3, counted / 1e6))
PY
