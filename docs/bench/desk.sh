#!/bin/sh
# Visits per second of a desk, against a plain mutex over the same book and the same job, in one run.
# usage: docs/bench/desk.sh [FOLDER]
# Writes a scratch repository into FOLDER (a new one under /tmp if none is named), proves its two crates, and runs the
# program. It stands outside the gate, and leaves the repository as it was.
. "$(dirname "$0")/scratch.sh"
begin desk_bench "${1:-}" desk
mkdir -p "$bench/proofs/visit_all" "$bench/proofs/workers"

cat >"$bench/proofs/visit_all/Invariants.antt" <<'END'
use Rattle.std.proofs.Common.{◌≡◌}
use Rattle.desk_bench.proofs.visit_all.Given as goal

abbrev pub invariant-loop-number : goal.invariant-loop-number
invariant-loop-number g l = l.pass.of ≡ l.initial.pass.of
END

cat >"$bench/proofs/workers/Invariants.antt" <<'END'
use Rattle.std.proofs.Common.{◌≡◌, All}
use Rattle.desk_bench.proofs.workers.Given as goal

abbrev pub invariant-loop : goal.invariant-loop
invariant-loop l = (l.pass.of ≡ l.initial.pass.of) × All (λ w. w.pass.of ≡ l.desk) l.workers.items
END

cat >"$bench/src/main.rt" <<'END'
//! Visits per second: a desk against a plain mutex, over the same book and the same job.
#![tactic(auto)]

ghost use Rattle.std.specs.Prelude.{◌≡◌, ◌≤◌, ◌<◌, ◌^◌, ◌++◌, ◌∷◌, [], All, length, MatchBool, IfOk, true, false};

use desk::{Booked, Desk, Job, Pass};
use std::alloc::{AllocError, Global};
use std::io;
use std::sync::{Mutex, Wait};
use std::thread::{Threads, for_each_mut};
use std::time::{Clock, Instant};

const VISITS: u64 = 2000000;

#[derive(Drop)]
struct Numbers {
    all: Vec<u64>,
    ghost room: { length all.items ≤ 2 ^ 62 },
}

impl Booked for Numbers {
    type Entry = u64;

    type Base = ();

    ghost entries = { λ b. b.all.items };

    ghost base = { λ _. tt };

    ghost faults = { λ _. 0 };

    fn length(&self) -> u64 {
        self.all.len() as u64
    }
}

// Appends a number while the book is small, and answers the last one.
#[derive(Drop)]
struct Append {
    number: u64,
    acted: bool,
}

impl Job<Numbers> for Append {
    type Answer = Option<u64>;

    ghost acted = { λ j. j.acted };

    ghost does = { λ j b r j' b'. j'.number ≡ j.number };

    fn act(&mut self, book: &mut Numbers) -> Option<u64> {
        self.acted = true;
        if book.all.len() < 64 {
            book.all.push(self.number).ok()?;
        }
        book.all.last().copied()
    }
}

#[derive(Drop)]
struct Worker {
    pass: Pass<Numbers>,
}

fn workers(
    alloc: Global,
    desk: &Desk<Numbers>,
    mut pass: Pass<Numbers>,
    count: usize,
) -> Result<Vec<Worker>, AllocError>
    requires { pass.of ≡ desk.now }
    ensures { IfOk result (λ v. All (λ w. w.pass.of ≡ desk.now) v.items) }
{
    let mut workers = Vec::new(alloc);
    for _ in 0..count {
        let pass = desk.split(&mut pass)?;
        if workers.push(Worker { pass }).is_err() {
            return Err(AllocError);
        }
    }
    Ok(workers)
}

fn visit<R: Wait>(
    rt: &R,
    desk: &Desk<Numbers>,
    pass: &mut Pass<Numbers>,
    number: u64,
) -> Option<u64>
    requires { pass.old.of ≡ desk.now }
    ensures { pass.new.of ≡ pass.old.of }
{
    let mut job = Append {
        number,
        acted: false,
    };
    desk.visit(rt, pass, &mut job)
}

fn visit_all<R: Wait>(rt: &R, desk: &Desk<Numbers>, pass: &mut Pass<Numbers>, visits: u64)
    requires { pass.old.of ≡ desk.now }
    ensures { pass.new.of ≡ pass.old.of }
{
    for number in 0..visits {
        visit(rt, desk, pass, number);
    }
}

fn run_desk<R: Threads + Wait + Sync>(
    rt: &R,
    desk: &Desk<Numbers>,
    workers: &mut [Worker],
    threads: usize,
    visits: u64,
)
    requires of { All (λ w. w.pass.of ≡ desk.now) workers.old }
    requires threads { 0 < threads }
{
    for_each_mut(
        rt,
        workers,
        threads,
        &|_, worker: &mut Worker|
            requires { worker.old.pass.of ≡ desk.now }
        {
            visit_all(rt, desk, &mut worker.pass, visits);
        },
    );
}

fn lock_all<R: Wait>(rt: &R, book: &Mutex<Numbers>, visits: u64) {
    for number in 0..visits {
        let mut job = Append {
            number,
            acted: false,
        };
        let mut book = book.lock(rt);
        job.act(&mut *book);
    }
}

fn run_mutex<R: Threads + Wait + Sync>(
    rt: &R,
    book: &Mutex<Numbers>,
    workers: &mut [u64],
    threads: usize,
)
    requires threads { 0 < threads }
{
    for_each_mut(
        rt,
        workers,
        threads,
        &|_, visits: &mut u64| {
            lock_all(rt, book, *visits);
        },
    );
}

// Microseconds for VISITS visits.
fn time_desk<R: Threads + Wait + Sync + Clock>(
    rt: &R,
    alloc: Global,
    threads: usize,
) -> io::Result<Option<u64>>
    requires { 0 < threads }
{
    let all = Vec::new(alloc);
    let Ok((desk, pass)) = Desk::open(alloc, Numbers { all }) else {
        return Ok(None);
    };
    let Ok(mut workers) = workers(alloc, &desk, pass, threads) else {
        return Ok(None);
    };
    let visits = VISITS / threads as u64;
    let start = Instant::now(rt)?;
    run_desk(rt, &desk, workers.as_mut_slice(), threads, visits);
    let spent = start.elapsed(rt)?;
    Ok(u64::try_from(spent.as_micros()).ok())
}

fn time_mutex<R: Threads + Wait + Sync + Clock>(
    rt: &R,
    alloc: Global,
    threads: usize,
) -> io::Result<Option<u64>>
    requires { 0 < threads }
{
    let all = Vec::new(alloc);
    let book = Mutex::new(Numbers { all });
    let visits = VISITS / threads as u64;
    let Ok(mut workers) = vec![in alloc; visits; threads] else {
        return Ok(None);
    };
    let start = Instant::now(rt)?;
    run_mutex(rt, &book, workers.as_mut_slice(), threads);
    let spent = start.elapsed(rt)?;
    Ok(u64::try_from(spent.as_micros()).ok())
}

// The least time of a few rounds that alternate.
fn measure<R: Threads + Wait + Sync + Clock + Print>(
    rt: &R,
    alloc: Global,
    threads: usize,
) -> io::Result<()>
    requires { 0 < threads }
{
    let mut desk = u64::MAX;
    let mut mutex = u64::MAX;
    for _ in 0..5 {
        if let Some(spent) = time_desk(rt, alloc, threads)? {
            desk = desk.min(spent);
        }
        if let Some(spent) = time_mutex(rt, alloc, threads)? {
            mutex = mutex.min(spent);
        }
    }
    let per_second = |spent: u64| VISITS * 1000000 / spent.max(1);
    println!(rt;
        "{threads} threads: desk {} visits/s, mutex {} visits/s, cost {} percent of the mutex",
        per_second(desk),
        per_second(mutex),
        desk.saturating_mul(100) / mutex.max(1)
    )
}

fn main(rt: HostRuntime) -> io::Result<()> {
    measure(&rt, rt.alloc(), 1)?;
    measure(&rt, rt.alloc(), 2)?;
    measure(&rt, rt.alloc(), 4)?;
    measure(&rt, rt.alloc(), 8)
}
END

cd "$bench"
rt run
