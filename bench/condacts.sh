#!/bin/sh
# Plays 10 and 100 lines that read 200,000 condacts each, through calls three deep: the condacts a second; beside them a plain loop
# of as many steps in C.

. "$(dirname "$0")/common.sh"

# GO reads table 6, which tests a flag 4,667 times, and table 3, which calls table 4 255 times, which calls table 5 255
# times, which tests two flags.
source_text() {
    sections 'GO 30 verb'
    printf '/PRO 0\nGO _ PROCESS 6 PROCESS 3 DONE\n/PRO 1\n/PRO 2\n/PRO 3\n'
    entry 255 'PROCESS 4'
    echo /PRO 4
    entry 255 'PROCESS 5'
    printf '/PRO 5\n_ _ ZERO 100 EQ 101 0\n/PRO 6\n'
    for i in 1 2 3 4 5 6 7 8 9 10 11 12 13 14 15 16 17 18; do entry 255 'ZERO 100'; done
    entry 77 'ZERO 100'
}

# A loop over a table of steps, each of which tests one number.
plain_loop() {
    cat <<'END_OF_C'
#include <stdio.h>
int main(void) {
    static volatile unsigned char flags[256], steps[256];
    unsigned long right = 0;
    for (long i = 0; i < 20000000; i++)
        switch (steps[i & 255]) {
            case 0: right += flags[i & 255] == 0; break;
            case 1: right += flags[i & 255] != 0; break;
        }
    return right != 20000000;
}
END_OF_C
}

source_text >"$room/source"
compile "$room/source" "$room/image" || exit
for lines in 10 100; do
    repeated $lines GO >"$room/lines"
    took=$(seconds "$program" walk "$room/image" 7 <"$room/lines") || exit
    figure "walk of $lines lines with 200000 condacts each" "$(rate "$((lines * 200000))" "$took")" condacts/second
done
if plain_loop >"$room/plain.c" && built plain; then
    took=$(seconds "$room/plain") || exit
    figure "  a plain loop" "$(rate 20000000 "$took")" steps/second
fi
