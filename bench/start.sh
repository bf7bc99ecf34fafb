#!/bin/sh
# Starts a walk on an image of nearly 4 MB with no lines: the milliseconds, less those on an image of 26 bytes; beside them a plain
# program that reads the file and goes over its bytes once.

. "$(dirname "$0")/common.sh"

# 256 texts of 4,095 bytes, and tables with 3,900 entries of 255 condacts: an image of 4,044,000 bytes.
source_text() {
    awk 'BEGIN {
        print "/VOC\nGO 30 verb\n/STX\n/MTX"
        text = sprintf("%4095s", "x")
        for (i = 0; i < 256; i++) print "/" i "\n" text
        print "/OTX\n/LTX\n/0\n/CON\n/OBJ"
        for (i = 0; i < 255; i++) condacts = condacts " EQ 0 0"
        for (t = 0; t < 4; t++) {
            print "/PRO " t
            for (e = 0; e < 975; e++) print "GO _" condacts
        }
    }'
}

plain_loop() {
    cat <<'END_OF_C'
#include <stdio.h>
#include <stdlib.h>
int main(int count, char **words) {
    static unsigned char bytes[4194304];
    FILE *file = fopen(words[count - 1], "rb");
    if (!file) return 1;
    size_t length = fread(bytes, 1, sizeof bytes, file);
    volatile unsigned sum = 0;
    for (size_t i = 0; i < length; i++) sum = sum * 31 + bytes[i];
    return fclose(file);
}
END_OF_C
}

source_text >"$room/source"
compile "$room/source" "$room/image" || exit
printf '%s\n' /VOC /STX /MTX /OTX /LTX /0 /CON /OBJ '/PRO 0' '/PRO 1' '/PRO 2' >"$room/least.source"
compile "$room/least.source" "$room/least" || exit
took=$(best "$program" walk "$room/image" 7) || exit
least=$(best "$program" walk "$room/least" 7) || exit
figure "start of a walk, image of $(wc -c <"$room/image") bytes" "$(milliseconds "$took")" ms
figure "  of 26 bytes" "$(milliseconds "$least")" ms
if plain_loop >"$room/plain.c" && built plain; then
    took=$(best "$room/plain" "$room/image") || exit
    figure "  a plain loop that reads the file and goes over it once" "$(milliseconds "$took")" ms
fi
