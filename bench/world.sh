#!/bin/sh
# Times moves, searches and flags over worlds of 10 and of 255 objects: the nanoseconds of each call. The calls are made by a small
# program, which is written, proved and built in a folder of its own over the crates of the world: that takes minutes.

. "$(dirname "$0")/common.sh"

# The program: its words are the call and the number of objects.
calls_of_a_world() {
    cat <<'END'
//! Makes 20,000,000 calls of a world: `moves`, `searches` or `flags`, over so many objects.
#![tactic(auto)]

use paw_base::parts::ObjectFacts;
use paw_world::world::World;
use std::env::{self, Env};
use std::io;
use std::process::ExitCode;

const CALLS: u32 = 20_000_000;

fn moves(world: &mut World) {
    let count = world.objects().max(1) as u32;
    for i in 0..CALLS {
        let o = (i % count) as u8;
        if o < world.objects() {
            world.move_to(o, (i % 7) as u8);
        }
    }
}

fn searches(world: &World) -> u32 {
    let mut found = 0u32;
    for i in 0..CALLS {
        if world.first_at((i % 7) as u8, Some((i % 251) as u8)).is_some() {
            found = found.wrapping_add(1);
        }
    }
    found
}

fn flags(world: &mut World) {
    for i in 0..CALLS {
        let f = (i % 256) as u8;
        let x = world.flag(f);
        world.set_flag(f, x.wrapping_add(1));
    }
}

fn run<R: Env + AllocGlobal>(rt: &R) -> io::Result<u32> {
    let words: Vec<String> = env::args(rt)?.skip(1).collect(rt.alloc())?;
    let many = words.len() == 2 && words[1].as_str() == "255";
    let thing = ObjectFacts {
        noun: 255,
        adjective: 255,
        start: 0,
        weight: 1,
        container: false,
        wearable: false,
    };
    let facts = [thing; 255];
    let count = if many { 255 } else { 10 };
    let mut world = World::new(&facts[..count], 10, 7);
    if words.is_empty() {
        return Ok(0);
    }
    match words[0].as_str() {
        "moves" => moves(&mut world),
        "searches" => return Ok(searches(&world)),
        "flags" => flags(&mut world),
        _ => {}
    }
    Ok(world.flag(1) as u32)
}

fn main(rt: HostRuntime) -> ExitCode {
    match run(&rt) {
        Ok(n) => ExitCode::from((n % 2) as u8),
        Err(_) => ExitCode::from(8),
    }
}
END
}

mkdir -p "$room/crates/bench_world/src" || exit
for crate in paw_base paw_world; do
    mkdir -p "$room/crates/$crate" && cp -R "$top/crates/$crate/src" "$top/crates/$crate/specs" "$top/crates/$crate/proofs" \
        "$room/crates/$crate" || exit
done
cp "$top/HANDLES" "$room" || exit
{ grep -E '^paw_(base|world):' "$top/crates.txt" && echo 'bench_world: paw_base paw_world rand_core rand_pcg'; } >"$room/crates.txt"
calls_of_a_world >"$room/crates/bench_world/src/main.rt"
(cd "$room" && git init -q . && cd crates/bench_world && rt run -- none 10 </dev/null >"$room/said" 2>&1)
if ! test -x "$room/crates/bench_world/out/bench_world"; then
    tail -n 40 "$room/said" >&2
    exit 1
fi

# The nanoseconds of one of 20,000,000 calls.
nanoseconds() {
    begin=$(date +%s%N)
    "$room/crates/bench_world/out/bench_world" "$1" "$2"
    end=$(date +%s%N)
    awk -v t=$((end - begin)) 'BEGIN { printf "%.2f", t / 2e7 }'
}

for call in moves searches flags; do
    for count in 10 255; do
        figure "$call of a world with $count objects" "$(nanoseconds $call $count)" ns/call
    done
done
