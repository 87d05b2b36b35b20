# What bench/*/run.sh share, but for that of decode. Each begins with `. "$(dirname "$0")/../lib.sh"`, which puts it at the top of the
# repository, with a folder $work for what it builds. $work goes at the end.
# shellcheck shell=bash
set -eu
layer=$(basename "$(cd "$(dirname "${BASH_SOURCE[1]}")" && pwd)")
if [ -n "${BENCH_PROGRAM:-}" ]; then BENCH_PROGRAM=$(realpath "$BENCH_PROGRAM"); fi
cd "$(dirname "${BASH_SOURCE[0]}")/.."
work=$(mktemp -d)
trap 'rm -rf "$work"' EXIT

# The crate of the program that is timed, of all layers, and what each line of its input begins with
program=bench
BENCH_PREFIX="$layer "
# turns.py is found here, and says by these how a program is run
export PYTHONPATH="$PWD/bench" PYTHONDONTWRITEBYTECODE=1 BENCH_WORK="$work" BENCH_PREFIX

# usage TEXT ARGUMENT..: ends with the usage where an argument is no number.
usage() {
    local text=$1
    shift
    for number in "$@"; do
        case $number in
            '' | *[!0-9]*) echo "usage: bench/$layer/run.sh $text" >&2; exit 2 ;;
        esac
    done
}

# compile_c SOURCE NAME FLAGS..: $work/NAME, of a source in the layer's folder. Its tables are written first, where tables.py has some.
compile_c() {
    local source=bench/$layer/$1 name=$2
    shift 2
    python3 bench/tables.py "$layer" >"$work/tables.h"
    gcc -O3 "$@" -I"$work" -o "$work/$name" "$source"
}

# build NAME FLAGS..: proves and builds the program, with flags of `rt run`, as $work/NAME. BENCH_PROGRAM names a built one instead.
build() {
    local name=$1
    shift
    if [ -n "${BENCH_PROGRAM:-}" ]; then
        cp "$BENCH_PROGRAM" "$work/$name"
        return
    fi
    (cd "crates/$program" && rt run "$@" <stdin >/dev/null 2>"$work/log") || { cat "$work/log" >&2; exit 1; }
    cp "crates/$program/out/$program" "$work/$name"
}
