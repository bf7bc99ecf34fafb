# shellcheck shell=sh disable=SC2034
# What the scripts here share; each sources this. Its words: --help alone, or a number where the script says so.

case $1 in
--help)
    sed -n '2,/^$/s/^# \{0,1\}//p' "$0"
    exit
    ;;
*[!0-9]*)
    printf 'bench/%s: it has no word %s; --help says what it measures\n' "${0##*/}" "$1" >&2
    exit 1
    ;;
esac
top=$(CDPATH='' cd -- "$(dirname -- "$0")/.." && pwd) || exit
program=${PAW:-$("$top/paw" --which)} || exit
. "$top/tools/room"
make_room || exit

# One row of the table: what was measured, how much, and of what.
figure() {
    printf '%-62s %12s %s\n' "$1" "$2" "$3"
}

# The seconds of the processor that a command takes, and those of the clock. Its text goes to the file shown.
seconds() {
    "$top/bench/seconds" "$room/shown" "$@"
}

wall() {
    "$top/bench/seconds" --wall "$room/shown" "$@"
}

# The least seconds of the processor of three runs of a command that reads nothing.
best() {
    least=$(seconds "$@" </dev/null) || return
    for again in 2 3; do
        took=$(seconds "$@" </dev/null) || return
        least=$(awk -v a="$least" -v b="$took" 'BEGIN { print a < b ? a : b }')
    done
    echo "$least"
}

# So many a second, as a whole number.
rate() {
    awk -v n="$1" -v t="$2" 'BEGIN { printf "%.0f", n / t }'
}

milliseconds() {
    awk -v t="$1" 'BEGIN { printf "%.1f", t * 1000 }'
}

# So many times the same line.
repeated() {
    awk -v n="$1" -v line="$2" 'BEGIN { for (i = 0; i < n; i++) print line }'
}

# An entry with so many condacts of one form.
entry() {
    awk -v n="$1" -v condact="$2" 'BEGIN { printf "_ _"; for (i = 0; i < n; i++) printf " %s", condact; print "" }'
}

# The sections before the tables: words, and one location with a text.
sections() {
    printf '/VOC\n'
    printf '%s\n' "$@"
    printf '/STX\n/MTX\n/OTX\n/LTX\n/0\nA room.\n/CON\n/OBJ\n'
}

compile() {
    "$program" compile "$1" "$2" >/dev/null
}

# Compiles a program in C, where there is a compiler for it.
built() {
    command -v cc >/dev/null && cc -O2 -o "$room/$1" "$room/$1.c" 2>/dev/null
}
