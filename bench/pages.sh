#!/usr/bin/env bash
# How many states `take` loads for a page, and how long many calls take, in a pool of 1,048,576 pages of which nine in ten are in use.
# A page that is retired stands for one that a loader has unlinked: the program does not unlink it, so it could not be proved.
# The times are the least of five runs. The program stands in no crate of this repository: the script writes it into a folder that goes
# when the script ends, beside a copy of the crates below it, and `rt try` builds and runs it without a proof.
# Usage: bench/pages.sh
set -u
here=$(cd "$(dirname "$0")" && pwd)
folder=$(mktemp -d)
trap 'rm -rf "$folder"' EXIT
mkdir -p "$folder/crates/pages/src"
for crate in htss_defs env_code board_core block_words board page_pool; do
  mkdir "$folder/crates/$crate"
  for part in src specs proofs; do
    [ -d "$here/../crates/$crate/$part" ] && cp -r "$here/../crates/$crate/$part" "$folder/crates/$crate/"
  done
  grep "^$crate[ :]" "$here/../crates.txt" >>"$folder/crates.txt"
done
cp "$here/../HANDLES" "$folder/"
echo 'pages: htss_defs board_core board page_pool anyhow' >>"$folder/crates.txt"
cat >"$folder/crates/pages/src/main.rt" <<'PROGRAM'
//! Pages that are taken from a pool of which nine in ten are in use.
#![tactic(auto)]

use anyhow::Result;
use board::{Board, Caller, open_board};
use htss_defs::Shape;
use page_pool::{retire, take};
use std::time::Instant;

const PAGES: u32 = 1_048_576;

// A page by chance, and what the next one comes from.
fn by_chance(seed: u64) -> (u32, u64) {
    let next = seed.wrapping_mul(6_364_136_223_846_793_005).wrapping_add(1_442_695_040_888_963_407);
    (((next >> 33) % u64::from(PAGES)) as u32 + 1, next)
}

// Takes a page. Answers it, and how many states were loaded from the page at which the look began to that which was given.
fn looked(board: &Board, caller: &mut Caller) -> (u32, u64) {
    let next = caller.next_page();
    match take(board, caller) {
        Ok(page) => (page, u64::from((page + PAGES - next) % PAGES) + 1),
        Err(_) => (0, u64::from(PAGES)),
    }
}

// Retires a page by chance that is in use, other than the root.
fn retires(board: &Board, caller: &mut Caller, used: &mut [bool], seed: u64) -> u64 {
    let mut seed = seed;
    for _ in 0..u32::MAX {
        let (page, next) = by_chance(seed);
        seed = next;
        if page != 1 && used[page as usize] {
            used[page as usize] = false;
            retire(board, caller, page);
            return seed;
        }
    }
    seed
}

fn main(rt: HostRuntime) -> Result<()> {
    let shape = Shape { loaders: 1, searchers: 1, pages: PAGES, room: 10, log: 1, chain: 2 };
    let (board, mut callers) = match open_board(rt.alloc(), shape) {
        Ok(opened) => opened,
        Err(_) => return Ok(()),
    };
    let mut caller = callers.remove(0);
    let mut used = vec![in rt.alloc(); true; PAGES as usize + 1]?;
    for _ in 1..PAGES {
        let _page = looked(&board, &mut caller);
    }
    let mut seed = 7;
    for _ in 0..PAGES / 10 {
        seed = retires(&board, &mut caller, &mut used, seed);
    }
    for takes in [100_000, 200_000] {
        let mut states = 0;
        let mut most = 0;
        let mut least = u128::MAX;
        for _ in 0..5 {
            states = 0;
            let start = Instant::now(&rt)?;
            for _ in 0..takes {
                let (page, loads) = looked(&board, &mut caller);
                used[page as usize] = true;
                states += loads;
                most = loads.max(most);
                seed = retires(&board, &mut caller, &mut used, seed);
            }
            least = least.min(start.elapsed(&rt)?.as_micros());
        }
        println!(rt; "{takes} pages taken, another retired after each: {least} us, {states} states loaded, at most {most} for one")?;
    }
    Ok(())
}
PROGRAM
cd "$folder/crates/pages" && rt try 2>&1 | grep 'pages taken'
