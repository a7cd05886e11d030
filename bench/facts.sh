#!/usr/bin/env bash
# The time of a question by place over Dags of 2,048 nodes, 64 trees of 32 levels and 8 of 256, of which each node is asked for: by
# DagFacts, which works the facts out once, and by facts_at, which does so at each call. `rt try` compiles the program with its
# checks and without any proof, so that it stands in no crate of the repository: what is printed is above what a built program takes.
# It works on a copy of the crates as they were committed.
set -euo pipefail
top="$(cd "$(dirname "${BASH_SOURCE[0]}")/.." && pwd)"
folder="$(mktemp -d)"
trap 'rm -rf "$folder"' EXIT
(cd "$top" && git archive HEAD crates crates.txt HANDLES) | tar -x -C "$folder"
cd "$folder"
echo "facts_bench: logical_dag scope_expr scope_value col_sets fd_closure sqlite_items" >> crates.txt
mkdir -p crates/facts_bench/src
cat > crates/facts_bench/src/main.rt <<'MAIN'
//! Asks for the facts of each node of a large Dag.
#![tactic(auto)]

use col_sets::{ColSet, Dir, KeyOrders};
use logical_dag::{Dag, DagFacts, LogicOp, Logical, Output, Place, PlacePart, TopArgs, facts_at};
use scope_expr::{Expr, PairOp};
use scope_value::{Cell, ColType};
use sqlite_items::{Boxed, Items};
use std::alloc::{AllocError, Global};
use std::io;
use std::time::{Duration, Instant};

fn over(alloc: Global, op: LogicOp, kid: Logical) -> Result<Logical, AllocError> {
    let mut kids = Items::new(alloc);
    kids.push(kid)?;
    Ok(Logical { op, kids })
}

fn column(c: u32) -> Expr {
    Expr::Col(c, ColType::Long)
}

// A scan of four columns, a Filter that sets two of them equal, and so many Tops.
fn tall(alloc: Global, scan: u32, tops: u32) -> Result<Logical, AllocError> {
    let cols = ColSet::of(&[0, 1, 2, 3]);
    let mut tree = Logical {
        op: LogicOp::Scan { scan, cols },
        kids: Items::new(alloc),
    };
    let equal = Expr::Pair(PairOp::Eq, Boxed::new(alloc, column(0))?, Boxed::new(alloc, column(1))?);
    tree = over(alloc, LogicOp::Filter(equal), tree)?;
    for _ in 0..tops {
        let order = KeyOrders::new(0, Dir::Up);
        tree = over(alloc, LogicOp::Top(TopArgs { n: 9, order }), tree)?;
    }
    Ok(tree)
}

fn large(alloc: Global, trees: u32, levels: u32) -> Result<Option<Dag>, AllocError> {
    let mut outputs = Items::new(alloc);
    for number in 0..trees {
        outputs.push(Output {
            name: Cell::from_slice(alloc, b"out")?,
            delimiter: b',',
            order: None,
            stored: None,
            tree: tall(alloc, number, levels - 2)?,
        })?;
    }
    Ok(Dag::new(Items::new(alloc), Items::new(alloc), outputs).ok())
}

fn place(at: u32, levels: u32) -> Place {
    Place {
        tree: at / levels,
        node: at % levels,
        part: PlacePart::Whole,
    }
}

fn nanoseconds(duration: Duration) -> u64 {
    u64::try_from(duration.as_nanos()).unwrap_or(u64::MAX)
}

fn main(rt: HostRuntime) -> io::Result<()> {
    for (trees, levels) in [(64u32, 32u32), (8, 256)] {
        let Ok(Some(dag)) = large(rt.alloc(), trees, levels) else {
            return Ok(());
        };
        let start = Instant::now(&rt)?;
        let Ok(known) = DagFacts::new(rt.alloc(), &dag) else {
            return Ok(());
        };
        let made = nanoseconds(start.elapsed(&rt)?);
        let mut columns = 0u64;
        let start = Instant::now(&rt)?;
        for _ in 0..20u32 {
            for at in 0..2048u32 {
                columns += u64::from(known.at(&place(at, levels)).columns.count());
            }
        }
        let looked_up = nanoseconds(start.elapsed(&rt)?) / (20 * 2048);
        let start = Instant::now(&rt)?;
        for at in 0..64u32 {
            columns += u64::from(facts_at(&dag, &place(32 * at + 31, levels)).columns.count());
        }
        let worked_out = nanoseconds(start.elapsed(&rt)?) / 64;
        println!(rt; "{trees} trees of {levels} levels, {columns} columns in all: made once in {} us; by DagFacts {looked_up} ns a question, by facts_at {worked_out} ns", made / 1000)?;
    }
    Ok(())
}
MAIN
cd crates/facts_bench
rt try
