#!/bin/sh
# Plays 200,000 lines over a table with no other entries, and over ones with 3,900 entries that don't match: of verbs that no line
# has, and of the line's own verb with other nouns. The lines a second.

. "$(dirname "$0")/common.sh"

# So many entries that don't match stand before the one that answers; they differ in their verb or in their noun.
source_text() {
    awk -v n="$1" -v differ="$2" 'BEGIN {
        print "/VOC\nGO 30 verb"
        for (i = 0; i < 200; i++) printf "W%03d %d verb\nX%03d %d noun\n", i, 40 + i, i, 50 + i
        print "/STX\n/MTX\n/OTX\n/LTX\n/0\n/CON\n/OBJ\n/PRO 0"
        entry = differ == "verb" ? "W%03d _ LET 60 1 DONE\n" : "GO X%03d LET 60 1 DONE\n"
        for (i = 0; i < n; i++) printf entry, i % 200
        print "GO _ DONE\n/PRO 1\n/PRO 2"
    }'
}

# So many entries that differ in this, as a row.
row() {
    source_text "$1" "$2" >"$room/source"
    compile "$room/source" "$room/image" || exit
    took=$(seconds "$program" walk "$room/image" 7 <"$room/lines") || exit
    figure "walk of 200000 lines, $1 entries that differ in the $2" "$(rate 200000 "$took")" lines/second
}

repeated 200000 GO >"$room/lines"
row 0 verb
row 3900 verb
row 3900 noun
