#!/bin/sh
# Traces 100,000 lines, each of which reads a few condacts: the lines a second, beside those of a walk.

. "$(dirname "$0")/common.sh"
image=$top/games/rooms.img

repeated 100000 SING >"$room/lines"
took=$(seconds "$program" walk "$image" 7 <"$room/lines") || exit
figure "walk of 100000 lines" "$(rate 100000 "$took")" lines/second
took=$(seconds "$program" trace "$image" 7 <"$room/lines") || exit
figure "trace of the same" "$(rate 100000 "$took")" lines/second
figure "  steps that it shows" "$(grep -c '^[0-9]*\.[0-9]*\.[0-9]* ' "$room/shown")" lines
