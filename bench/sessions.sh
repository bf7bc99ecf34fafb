#!/bin/sh
# Plays 2,000 lines (or as many as its word says) with a session: the turns a second and the bytes that a turn writes; beside them a
# plain loop of as many writes and syncs of as many bytes. Then resumes after no draw and after a million draws.

. "$(dirname "$0")/common.sh"
turns=${1:-2000}

# LUCK reads table 3, which calls table 4 255 times, which draws 255 times; WAIT does nothing.
source_text() {
    sections 'LUCK 30 verb' 'WAIT 31 verb'
    printf '/PRO 0\nLUCK _ PROCESS 3 DONE\nWAIT _ DONE\n/PRO 1\n/PRO 2\n/PRO 3\n'
    entry 255 'PROCESS 4'
    echo /PRO 4
    entry 255 'CHANCE 100'
}

# So many turns: records and a piece, where there are any, and the number of records to a slot, and a sync; the selector, and a sync.
plain_loop() {
    cat <<'END_OF_C'
#include <fcntl.h>
#include <stdlib.h>
#include <unistd.h>
int main(int count, char **words) {
    static char bytes[65536];
    int file = open(words[1], O_RDWR | O_CREAT, 0666);
    long records = atol(words[3]), piece = atol(words[4]);
    if (count != 5 || file < 0 || ftruncate(file, 172288)) return 1;
    for (long i = 0; i < atol(words[2]); i++) {
        long slot = i & 1 ? 128 : 86208;
        if (records && pwrite(file, bytes, 4 * records, slot + 69696) < 0) return 1;
        if (piece && pwrite(file, bytes, piece, slot + 4160) < 0) return 1;
        if (pwrite(file, bytes, 3, slot) < 0 || fsync(file)) return 1;
        if (pwrite(file, bytes, 1, 1) < 0 || fsync(file)) return 1;
    }
    return 0;
}
END_OF_C
}

play() {
    "$program" play "$room/image" "$1" 7 <"$2"
}

# The number of change records of a slot: its first two bytes.
records_at() {
    od -An -v -tu1 -j "$2" -N 2 "$1" | awk '{ print $1 + 256 * $2 }'
}

source_text >"$room/source"
compile "$room/source" "$room/image" || exit
repeated 40 WAIT >"$room/some"
repeated 42 WAIT >"$room/more"
play "$room/some.session" "$room/some" >/dev/null || exit
play "$room/more.session" "$room/more" >/dev/null || exit
# Each slot was written once more in the second session: so many records a turn.
records=$((($(records_at "$room/more.session" 128) - $(records_at "$room/some.session" 128) + \
    $(records_at "$room/more.session" 86208) - $(records_at "$room/some.session" 86208)) / 2))
repeated "$turns" WAIT >"$room/waits"
took=$(wall "$program" play "$room/image" "$room/played" 7 <"$room/waits") || exit
# The piece of WAIT is empty here: no message stands for the prompt.
figure "play, $turns turns with two syncs each" "$(rate "$turns" "$took")" turns/second
figure "  bytes that a turn writes" $((4 * records + 4)) bytes
if plain_loop >"$room/plain.c" && built plain; then
    took=$(wall "$room/plain" "$room/written" "$turns" "$records" 0) || exit
    figure "  a plain loop of as many writes and syncs" "$(rate "$turns" "$took")" turns/second
fi

# 65,025 draws a line: sixteen lines are more than a million.
repeated 16 WAIT >"$room/none"
repeated 16 LUCK >"$room/million"
for drawn in none million; do
    play "$room/$drawn.session" "$room/$drawn" >/dev/null || exit
    took=$(wall "$program" resume "$room/image" "$room/$drawn.session" </dev/null) || exit
    figure "resume after 16 lines, draws: $drawn" "$(milliseconds "$took")" ms
done
