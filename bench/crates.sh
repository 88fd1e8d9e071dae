# What the scripts that build a program share: it is built in a folder of its own, over a copy of the crates below it, which are proved first.
here=$(cd "$(dirname "$0")/.." && pwd) || exit 1
work=$(mktemp -d) || exit 1
trap 'rm -rf "$work"' EXIT

# copied FOLDER PROGRAM DEPS NAME..: the crates of these names, and bench/PROGRAM.txt as a program that uses DEPS
copied() {
    folder=$work/$1 program=$2 deps=$3
    shift 3
    mkdir -p "$folder/crates/$program/src" || exit 1
    for name; do
        mkdir "$folder/crates/$name" || exit 1
        cp -r "$here/crates/$name/src" "$here/crates/$name/specs" "$here/crates/$name/proofs" "$folder/crates/$name" || exit 1
        grep "^$name:" "$here/crates.txt" >>"$folder/crates.txt" || exit 1
    done
    echo "$program: $deps" >>"$folder/crates.txt"
    cp "$here/bench/$program.txt" "$folder/crates/$program/src/main.rt" || exit 1
}

# built FOLDER PROGRAM WORD..: the program, tried with these words
built() {
    folder=$work/$1 program=$2
    shift 2
    (cd "$folder/crates/$program" && rt run -- "$@") >"$work/log" 2>&1
    [ -x "$folder/crates/$program/out/$program" ] || { cat "$work/log" >&2; exit 1; }
}
