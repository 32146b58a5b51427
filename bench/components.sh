#!/usr/bin/env bash
# Times of `tor_solve::components` over digraphs of four sizes.
#   bench/components.sh
# A small program is made beside a copy of the crates, proved, built and run, and then thrown away. It prints processor time.
set -euo pipefail
top=$(cd "$(dirname "$0")/.." && pwd)
copy=$(mktemp -d)
trap 'rm -rf "$copy"' EXIT
cp "$top/crates.txt" "$top/HANDLES" "$copy"
tar -C "$top" --exclude=out -cf - crates | tar -C "$copy" -xf -
echo 'components_bench: tor_arena tor_digraph tor_solve anyhow' >> "$copy/crates.txt"
mkdir -p "$copy/crates/components_bench/src"
cat > "$copy/crates/components_bench/src/main.rt" <<'RUST'
//! Times of the strong components.
#![tactic(auto)]

use anyhow::Result;
use std::alloc::Global;
use std::time::CpuClock;
use tor_arena::{ArcId, Index, NodeId};
use tor_solve::components;
use tor_digraph::{Digraph, GraphRefused};

/// The next state of a linear congruential generator (Knuth's MMIX).
fn stepped(state: u64) -> u64 {
    state
        .wrapping_mul(6364136223846793005)
        .wrapping_add(1442695040888963407)
}

/// A place below `nodes`, which is not 0, from the upper half of a state.
fn place(state: u64, nodes: usize) -> usize {
    match nodes {
        0 => 0,
        _ => (state >> 33) as usize % nodes,
    }
}

/// Adds an arc, if both ends are there.
fn add(graph: &mut Digraph<NodeId, ArcId>, tail: usize, head: usize) -> Result<(), GraphRefused> {
    let count = graph.node_count();
    if tail >= count || head >= count {
        return Ok(());
    }
    let (Some(tail), Some(head)) = (NodeId::from_place(tail), NodeId::from_place(head)) else {
        return Ok(());
    };
    graph.add_arc(tail, head)?;
    Ok(())
}

/// So many nodes, and arcs between any two of them or only from the lesser to the greater.
fn made(
    alloc: Global,
    forward: bool,
    nodes: usize,
    arcs: usize,
) -> Result<Digraph<NodeId, ArcId>, GraphRefused> {
    let mut graph = Digraph::new(alloc);
    graph.add_nodes(nodes)?;
    let mut state = 1u64;
    for _ in 0..arcs {
        state = stepped(state);
        let tail = place(state, nodes);
        state = stepped(state);
        let head = place(state, nodes);
        if forward {
            add(&mut graph, tail.min(head), tail.max(head))?;
        } else {
            add(&mut graph, tail, head)?;
        }
    }
    Ok(graph)
}

/// What is measured, in microseconds of processor time.
#[derive(Drop)]
struct Times {
    building: u128,
    sorting: u128,
    count: usize,
}

/// The processor time so far, in microseconds.
fn used(clock: &impl CpuClock) -> u128 {
    match clock.process_cpu_time() {
        Ok(time) => time.as_micros(),
        Err(_) => 0,
    }
}

fn measured(
    clock: &impl CpuClock,
    alloc: Global,
    forward: bool,
    nodes: usize,
    arcs: usize,
) -> Option<Times> {
    let start = used(clock);
    let Ok(graph) = made(alloc, forward, nodes, arcs) else {
        return None;
    };
    let built = used(clock);
    let Ok(parts) = components(alloc, &graph) else {
        return None;
    };
    let sorted = used(clock);
    Some(Times {
        building: built.saturating_sub(start),
        sorting: sorted.saturating_sub(built),
        count: parts.count(),
    })
}

fn main(rt: HostRuntime) -> Result<()> {
    for turn in 0..8usize {
        let forward = turn >= 4;
        let scale = match turn % 4 {
            0 => 1,
            1 => 10,
            2 => 20,
            _ => 40,
        };
        if let Some(times) = measured(&rt, rt.alloc(), forward, scale * 30_000, scale * 200_000) {
            println!(rt; "turn {turn}: built in {} us, {} components in {} us", times.building, times.count, times.sorting)?;
        }
    }
    Ok(())
}
RUST
(cd "$copy/crates/components_bench" && rt run > /dev/null)
for _ in 1 2 3; do "$copy/crates/components_bench/out/components_bench"; done
