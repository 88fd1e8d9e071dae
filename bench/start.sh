#!/bin/sh
# The time of a whole run on `k^2` beside that of an empty program: medians of 200 runs each, and their ratio. Wanted: at most 1.5.
here=$(cd "$(dirname "$0")/.." && pwd) || exit 1
printf 'k^2' | "$here/ekhad" gosper >/dev/null || exit 1
exec python3 - "$here/crates/ekhad/out/ekhad" <<'PY'
import statistics, subprocess, sys, time

def median(words, text):
    times = []
    for _ in range(200):
        start = time.perf_counter()
        subprocess.run(words, input=text, stdout=subprocess.DEVNULL, check=True)
        times.append(time.perf_counter() - start)
    return statistics.median(times)

ours, empty = median([sys.argv[1], "gosper"], b"k^2"), median(["/bin/true"], b"")
print("k^2: %.2f ms, empty program: %.2f ms, ratio %.2f" % (ours * 1e3, empty * 1e3, ours / empty))
PY
