#!/usr/bin/env bash
# Times of `result_text::print` and `parse` over results of growing size.
#   bench/text.sh
# A small program is made beside a copy of the crates, proved, built and run, and then thrown away.
set -euo pipefail
top=$(cd "$(dirname "$0")/.." && pwd)
copy=$(mktemp -d)
trap 'rm -rf "$copy"' EXIT
cp "$top/crates.txt" "$top/HANDLES" "$copy"
tar -C "$top" --exclude=out -cf - crates | tar -C "$copy" -xf -
echo 'text_bench: tor_arena relationships path_clean result_text anyhow' >> "$copy/crates.txt"
mkdir -p "$copy/crates/text_bench/src"
cat > "$copy/crates/text_bench/src/main.rt" <<'RUST'
//! Times of the result text, both ways.
#![tactic(auto)]

use anyhow::Result;
use path_clean::{Asides, Sets};
use result_text::{EdgeLine, Mark, PathLines, ResultFile, Totals, parse, print};
use std::alloc::Global;
use std::time::Instant;
use relationships::{Label, Walks};
use tor_arena::{List, NoMemory};

/// Numbers as AS numbers are: of one to six digits, most of five or six.
fn number(place: u32) -> u32 {
    place.wrapping_mul(2654435761) % 400_000
}

fn path(place: u32) -> [u32; 6] {
    let first = place.wrapping_mul(7);
    [
        number(first),
        number(first.wrapping_add(1)),
        number(first.wrapping_add(2)),
        number(first.wrapping_add(3)),
        number(first.wrapping_add(4)),
        number(first.wrapping_add(5)),
    ]
}

fn edge(place: u32) -> EdgeLine {
    EdgeLine {
        low: number(place),
        high: number(place.wrapping_add(1)),
        label: Label::High,
        mark: Mark::Open,
        support: u64::from(place),
    }
}

fn made(alloc: Global, count: u32) -> Result<ResultFile, NoMemory> {
    let mut paths = PathLines::new(alloc);
    for place in 0..count {
        paths.push_kept(u64::from(place), &path(place))?;
    }
    let mut edges = List::new(alloc);
    for place in 0..count / 2 {
        edges.push(edge(place))?;
    }
    Ok(ResultFile {
        sets: Sets::Cut,
        ratio: 60,
        asides: Asides::new(),
        givens: None,
        paths,
        edges,
        whys: Walks::new(alloc),
        probes: List::new(alloc),
        totals: Totals {
            kept: 0,
            lost: 0,
            edges: 0,
            forced: 0,
            peers: 0,
        },
    })
}

fn main(rt: HostRuntime) -> Result<()> {
    for count in [200_000, 400_000, 800_000, 1_600_000] {
        let Ok(file) = made(rt.alloc(), count) else {
            continue;
        };
        let start = Instant::now(&rt)?;
        let Ok(text) = print(rt.alloc(), &file) else {
            continue;
        };
        let printed = start.elapsed(&rt)?.as_millis();
        let start = Instant::now(&rt)?;
        let Ok(again) = parse(rt.alloc(), text.as_slice()) else {
            continue;
        };
        let parsed = start.elapsed(&rt)?.as_millis();
        println!(rt; "{count} paths, {} octets: printed in {printed} ms, read in {parsed} ms, {} paths", text.len(), again.paths.len())?;
    }
    Ok(())
}
RUST
cd "$copy/crates/text_bench"
rt run > /dev/null
for _ in 1 2 3; do out/text_bench; done
