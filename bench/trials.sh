#!/bin/sh
# Plays the trials 0 to 99, and the largest: how many a second.

. "$(dirname "$0")/common.sh"

took=$(seconds sh -c 'n=0; while test $n -lt 100; do "$0" trial $n || exit; n=$((n + 1)); done' "$program") || exit
figure 'trials 0 to 99, each a run of the program' "$(rate 100 "$took")" trials/second
took=$(seconds "$program" trial 8999) || exit
figure "trial 8999, 219 locations and 109 objects" "$(milliseconds "$took")" ms
