#!/bin/sh
# Runs vp9dec on each FILE.ivf of a folder. What `list` writes is compared with FILE.list, byte by byte, where that is there; how `decode`
# and `decode --plain` end, how much they write and what they tell, with tools/decode_endings.py; and what they write with FILE.md5 or
# FILE.ivf.md5. Where the folder has a LIST.tsv, the sums and the notes of files that break a rule are those of its lines.
#
# usage: tools/check_streams.sh [FOLDER]       (samples/streams)
#
# VP9DEC names another program than the launcher's. The status is 0 where something was checked and nothing differs.
set -u
top=$(dirname -- "$(dirname -- "$(readlink -f -- "$0")")")
program=${VP9DEC:-$top/vp9dec}
folder=${1:-$top/samples/streams}
out=$(mktemp -d) || exit 1
trap 'rm -rf "$out"' EXIT
trap 'exit 1' HUP INT TERM
agree=0 differ=0

# Once, so that a program that can't be built is told once. A file of nothing breaks a rule.
"$program" list </dev/null >"$out/text" 2>"$out/note"
[ $? -eq 3 ] || { cat "$out/note"; exit 1; }

# run FILE WORDS: what it writes is in text, and how it ends in found
run() {
    # shellcheck disable=SC2086 # each word is an argument
    "$program" $2 <"$1" >"$out/text" 2>"$out/note"
    found="$? $(wc -c <"$out/text")$(sed 's/^/ /' "$out/note")"
}

# tell NAME WORDS WANTED GOT: counts a run that ends, or writes, otherwise than it is to
tell() {
    differ=$((differ + 1))
    echo "$1: $2: '$4', and not '$3'"
}

sum_of() {
    md5sum <"$1" | cut -d ' ' -f 1
}

# listed NAME COLUMN: an entry of the folder's table
listed() {
    [ -e "$folder/LIST.tsv" ] && awk -F '\t' -v name="$1" -v column="$2" '$1 == name { print $column }' "$folder/LIST.tsv"
}

for file in "$folder"/*.ivf; do
    [ -e "$file" ] || continue
    name=$(basename -- "$file")
    run "$file" list
    cp "$out/text" "$out/listing"
    if list=${file%.ivf}.list && [ -e "$list" ]; then
        wanted="0 $(wc -c <"$list")"
        if [ "$found" = "$wanted" ] && cmp -s "$out/text" "$list"; then agree=$((agree + 1)); else tell "$name" list "$wanted" "$found"; fi
    fi
    wanted=$(python3 "$top/tools/decode_endings.py" <"$out/listing") || { tell "$name" decode "an ending" "none"; continue; }
    sum=$(cat "${file%.ivf}.md5" "$file.md5" 2>/dev/null | cut -d ' ' -f 1)
    [ -n "$sum" ] || sum=$(listed "$name" 4)
    note=$(listed "$name" 5)
    for words in "decode" "decode --plain"; do
        run "$file" "$words"
        if [ -n "$note" ] && [ "${wanted%% *}" -eq 0 ]; then wanted="3 $(wc -c <"$out/text") $note"; fi
        if [ "$found" != "$wanted" ]; then
            tell "$name" "$words" "$wanted" "$found"
        elif [ "$(sum_of "$out/text")" = "$sum" ]; then
            agree=$((agree + 1))
        else
            tell "$name" "$words" "$sum" "$(sum_of "$out/text")"
        fi
    done
done
echo "$agree agree, $differ differ"
[ "$differ" -eq 0 ] && [ "$agree" -gt 0 ]
