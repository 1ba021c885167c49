#!/bin/sh
# Runs a viewer on the tour's module, whose answers must be those of viewer/tour.stdout, and on the first cases that the gate runs; any complaint
# of a sanitizer ends it.
# usage: viewer/try.sh VIEWER [CASES]
set -eu
viewer=$1
cases=${2:-40}
folder=$(mktemp -d)
trap 'rm -rf "$folder"' EXIT
"$viewer" viewer/drives.hex 5 16 64 < viewer/drives.txt > "$folder/tour"
sed -n 's/^\(load: \)\{0,1\}\([0-9][0-9]*\) [a-z].*/\2/p' "$folder/tour" > "$folder/seen"
sed -n 's/^answer=//p' viewer/tour.stdout > "$folder/wanted"
cmp "$folder/seen" "$folder/wanted"
# A case begins with a line load=PLACES ENTRIES WORDS MODULE.. in hex; `list`, `short=`, `clear` and `alter=` are lines of that program alone.
awk -v folder="$folder" -v most="$cases" '
    /^load=/ { count++; if (count > most) exit; split(substr($0, 6), w, " "); print w[1], w[2], w[3] > (folder "/" count ".sizes")
               line = ""; for (i = 4; i in w; i++) line = line " " w[i]; print line > (folder "/" count ".hex"); printf "" > (folder "/" count ".txt"); next }
    count && !/^(list|short=|clear|alter=)/ { print > (folder "/" count ".txt") }
' crates/bench_cases/stdin
ran=0
for module in "$folder"/*.hex; do
    name=${module%.hex}
    read -r p h w < "$name.sizes"
    # a load that is refused ends the viewer with 1, which is an answer and no fault
    "$viewer" "$module" "$((0x$p))" "$((0x$h))" "$((0x$w))" < "$name.txt" > "$name.out" 2> "$name.err" || grep -q '^load: [12] ' "$name.out"
    if [ -s "$name.err" ]; then
        cat "$name.err"
        exit 1
    fi
    ran=$((ran + 1))
done
echo "the tour and $ran cases: no complaint"
