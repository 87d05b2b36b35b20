#!/bin/sh
# The built programs that the repository carries, in dist/.
#
#   tools/dist.sh --digest       prints the digest of what they are built of: crates.txt, HANDLES, each crate's src/, specs/ and proofs/, and the kit
#   tools/dist.sh --is-current   tells by its status whether dist/SOURCE is that digest, and whether the programs are those of dist/SHA256SUMS
#   tools/dist.sh --fits         the same for the kit that dist/ was built by, whatever kit is on the PATH: what ./vp9dec asks
#   tools/dist.sh --make         proves what isn't proved in this checkout, builds them and writes dist/
#   tools/dist.sh --link         the same over the libraries that a run of the gate left in this checkout
#   tools/dist.sh --check        runs the gate from nothing in a fresh clone, builds them there, and compares: the same bytes, or a failure
set -eu
top=$(cd -- "$(dirname -- "$(readlink -f -- "$0")")/.." && pwd)
cpus='x86-64-v2 x86-64-v3'

digest() {
    cd "$1"
    {
        echo "$2"
        find crates.txt HANDLES crates/*/src crates/*/specs crates/*/proofs -type f 2>/dev/null | LC_ALL=C sort | tr '\n' '\0' | xargs -0 sha256sum
    } | sha256sum | cut -d ' ' -f 1
}

# The kit's line: of the kit on the PATH, else the one that dist/ was built by.
kit() {
    if command -v rt >/dev/null; then rt version; else built_by; fi
}

# Whether dist/ is what the sources build with the kit of this line.
holds() {
    [ "$(head -n 1 "$top/dist/SOURCE" 2>/dev/null)" = "$(digest "$top" "$1")" ] &&
        (cd "$top/dist" && sha256sum --status -c SHA256SUMS)
}

built_by() {
    sed -n 2p "$top/dist/SOURCE" 2>/dev/null
}

build() {
    for cpu in $cpus; do
        mkdir -p "$2/$cpu"
        "$1/tools/build_program.py" "$cpu" "$2/$cpu/vp9dec"
    done
}

write() {
    build "$top" "$top/dist"
    (cd "$top/dist" && sha256sum */vp9dec >SHA256SUMS)
    { digest "$top" "$(kit)"; kit; } >"$top/dist/SOURCE"
    rm -f "$top/dist/CURRENT"
}

check() {
    room=$(mktemp -d)
    trap 'rm -rf "$room"' EXIT
    git clone -q "$top" "$room/clone"
    (cd "$room/clone" && rt ci --anew)
    build "$room/clone" "$room/dist"
    (cd "$room/dist" && sha256sum -c "$top/dist/SHA256SUMS")
}

case "${1-}" in
--digest) digest "$top" "$(kit)" ;;
--is-current) holds "$(kit)" ;;
--fits) holds "$(built_by)" ;;
--make) "$top/tools/build_program.py" --prove && write ;;
--link) write ;;
--check) check ;;
*)
    sed -n '2,10p' "$0" | cut -c 3- >&2
    exit 2
    ;;
esac
