#!/bin/sh
# Compiles sources of 1 and 8 MB, and decompiles their images: the MB of source a second.

. "$(dirname "$0")/common.sh"

# A source of about so many bytes: 2,000 words in no order, then tables of 4,000 entries, each with a word to be looked
# up and condacts that fill its line.
source_of() {
    awk -v most="$1" '
        function put(line) { print line; size += length(line) + 1 }
        BEGIN {
            put("/VOC")
            for (i = 0; i < 2000; i++) put(sprintf("W%04d %d verb", (i * 797) % 2000, 2 + i % 253))
            put("/STX"); put("/MTX"); put("/0"); put("Hello."); put("/OTX"); put("/LTX"); put("/0"); put("/CON"); put("/OBJ")
            condacts = " MES 0"
            for (i = 0; i < 18; i++) condacts = condacts " MES 0"
            tables = 3
            for (t = 0; t < tables; t++) {
                put("/PRO " t)
                for (e = 0; e < 4000 && size < most; e++) put(sprintf("W%04d _%s", (e * 31) % 2000, condacts))
                if (t == tables - 1 && size < most) tables++
            }
        }'
}

megabytes() {
    awk -v n="$(wc -c <"$1")" -v t="$2" 'BEGIN { printf "%.1f", n / t / 1e6 }'
}

for size in 1000000 8000000; do
    source_of $size >"$room/source"
    took=$(seconds "$program" compile "$room/source" "$room/image") || exit
    figure "compile of $size bytes" "$(megabytes "$room/source" "$took")" MB/second
    took=$(seconds "$program" decompile "$room/image") || exit
    figure "decompile of its image" "$(megabytes "$room/shown" "$took")" MB/second
done
