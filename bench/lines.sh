#!/bin/sh
# Plays 30,000 and 300,000 lines through the two rooms: the lines a second, and the most memory of each walk.

. "$(dirname "$0")/common.sh"
image=$top/games/rooms.img

# So many lines, seven kinds in turn: ways that are there and not there, words known and unknown, two phrases, none.
lines() {
    awk -v n="$1" 'BEGIN {
        split("N|SING|sing|N. N|XYZZY|| look at the yard, sing", kinds, "|")
        for (i = 0; i < n; i++) print kinds[i % 7 + 1]
    }'
}

# The most memory of such a walk, in KiB.
memory() {
    /usr/bin/time -f %M -o "$room/memory" "$program" walk "$image" 7 <"$room/lines" >/dev/null && cat "$room/memory"
}

for count in 30000 300000; do
    lines $count >"$room/lines"
    took=$(seconds "$program" walk "$image" 7 <"$room/lines") || exit
    pieces=$(grep -c '^>$' "$room/shown")
    if test "$pieces" -ne $((count + 1)); then
        printf 'lines.sh: %s pieces were shown for %s lines\n' "$pieces" "$count" >&2
        exit 1
    fi
    figure "walk of $count lines through two rooms" "$(rate $count "$took")" lines/second
    test -x /usr/bin/time && figure "  its memory" "$(memory)" KiB
done
