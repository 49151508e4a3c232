#!/usr/bin/env python3
"""Times writes and reads of a ring, in one thread and with a writer and a reader in two, beside a seqlock in C.

The seqlock is the ring's algorithm with sequentially consistent atomics, and without gates and proofs. Messages have
1, 4 and 32 words. Alone, each program writes all messages and then makes as many attempts to read; together, both at
once. For each it prints steps a second, by the least time of some runs, the ratio to C, and the share of attempts that
were overrun. Together that share, and so the speed, depends on how the machine places the threads. It prints figures
alone; nothing passes or fails here.
"""

import tempfile

from programs import c_program, lines_of, rattle_program

RUNS = 5
COUNT = 500_000
INVARIANTS = {
    "write_many": "l.writer.ring ≡ l.ring",
    "read_many": "l.reader.ring ≡ l.ring",
}

RATTLE = """//! Prints for each run: kind, width, buffers, nanoseconds, overruns.
#![tactic(auto)]

ghost use Rattle.std.specs.Prelude.{◌≡◌, ◌<◌, ◌≤◌};

use nbw_ring::{Reader, Ring, Try, Writer};
use std::thread::{Threads, join};
use std::time::{Clock, Instant};
use ttp_base::OpenGate;

const COUNT: usize = 500_000;

fn write_many(ring: &Ring, mut writer: Writer, width: usize) -> Writer
    requires { (writer.ring ≡ ring.now) × (width ≡ ring.now.shape.width) }
    ensures { result.ring ≡ ring.now }
{
    let words = [7u64; 32];
    for _ in 0..COUNT {
        if writer.number() < 1 << 40 && width <= 32 {
            ring.write(&mut writer, &words[..width], &OpenGate::new());
        }
    }
    writer
}

fn read_many(ring: &Ring, mut reader: Reader) -> (Reader, u64)
    requires { reader.ring ≡ ring.now }
    ensures { result.0.ring ≡ ring.now }
{
    let mut overruns = 0u64;
    for _ in 0..COUNT {
        if reader.spare() > 0 {
            if let Try::Overrun { .. } = ring.try_read(&mut reader, &OpenGate::new()) {
                overruns = overruns.wrapping_add(1);
            }
        }
    }
    (reader, overruns)
}

fn alone<R: Clock + Print + Alloc + AllocGlobal>(rt: &R, width: usize) -> anyhow::Result<()>
    requires { (0 < width) × (width ≤ 32) }
{
    let Ok((ring, writer)) = Ring::new(rt.alloc(), width, 2) else {
        return Ok(());
    };
    let start = Instant::now(rt)?;
    let mut writer = write_many(&ring, writer, width);
    let taken = start.elapsed(rt)?.as_nanos();
    println!(rt; "write {width} 2 {taken} 0")?;
    let Ok(reader) = ring.lend(&mut writer, COUNT) else {
        return Ok(());
    };
    let start = Instant::now(rt)?;
    let (_reader, overruns) = read_many(&ring, reader);
    let taken = start.elapsed(rt)?.as_nanos();
    println!(rt; "read {width} 2 {taken} {overruns}")?;
    Ok(())
}

fn both<R: Threads + Sync + Clock + Print + Alloc + AllocGlobal>(
    rt: &R,
    width: usize,
    buffers: usize,
) -> anyhow::Result<()>
    requires { (0 < width) × (width ≤ 32) × (0 < buffers) × (buffers ≤ 16) }
{
    let Ok((ring, mut writer)) = Ring::new(rt.alloc(), width, buffers) else {
        return Ok(());
    };
    let Ok(reader) = ring.lend(&mut writer, COUNT) else {
        return Ok(());
    };
    let start = Instant::now(rt)?;
    let (_writer, (_reader, overruns)) = join(
        rt,
        || write_many(&ring, writer, width),
        || read_many(&ring, reader),
    );
    let taken = start.elapsed(rt)?.as_nanos();
    println!(rt; "both {width} {buffers} {taken} {overruns}")?;
    Ok(())
}

fn main(rt: HostRuntime) -> anyhow::Result<()> {
    for _ in 0..RUNS {
        for width in [1, 4, 32] {
            alone(&rt, width)?;
            for buffers in [1, 2, 4] {
                both(&rt, width, buffers)?;
            }
        }
    }
    Ok(())
}
"""

C = """#include <pthread.h>
#include <stdatomic.h>
#include <stdint.h>
#include <stdio.h>
#include <stdlib.h>
#include <time.h>

enum { COUNT = 500000, MOST_WORDS = 32, MOST_BUFFERS = 4 };

static _Atomic uint64_t cells[1 + MOST_WORDS * MOST_BUFFERS];
static size_t width, buffers, got, overruns;
static uint64_t *words, *numbers;

__attribute__((noinline)) static void put(uint64_t number, const uint64_t *from) {
    size_t start = 1 + number % buffers * width;
    atomic_store(&cells[0], 2 * number - 1);
    for (size_t k = 0; k < width; k++)
        atomic_store(&cells[start + k], from[k]);
    atomic_store(&cells[0], 2 * number);
}

__attribute__((noinline)) static int take(void) {
    uint64_t begin = atomic_load(&cells[0]);
    uint64_t number = begin / 2, limit = 2 * (number + buffers) - 1;
    if (begin >= limit)
        return 0;
    size_t start = 1 + number % buffers * width;
    for (size_t k = 0; k < width; k++)
        words[got * width + k] = atomic_load(&cells[start + k]);
    if (atomic_load(&cells[0]) >= limit)
        return 0;
    numbers[got++] = number;
    return 1;
}

static void *write_many(void *unused) {
    uint64_t from[MOST_WORDS];
    for (size_t k = 0; k < MOST_WORDS; k++)
        from[k] = 7;
    for (uint64_t number = 1; number <= COUNT; number++)
        put(number, from);
    return unused;
}

static void *read_many(void *unused) {
    for (size_t k = 0; k < COUNT; k++)
        overruns += !take();
    return unused;
}

static long long now(void) {
    struct timespec time;
    clock_gettime(CLOCK_MONOTONIC, &time);
    return time.tv_sec * 1000000000LL + time.tv_nsec;
}

static void begin(size_t of_width, size_t of_buffers) {
    width = of_width;
    buffers = of_buffers;
    got = overruns = 0;
    words = malloc(8 * COUNT * width);
    numbers = malloc(8 * COUNT);
    for (size_t k = 0; k < sizeof cells / sizeof cells[0]; k++)
        atomic_store(&cells[k], 0);
}

static void end(const char *kind, long long start) {
    printf("%s %zu %zu %lld %zu\\n", kind, width, buffers, now() - start, overruns);
}

int main(void) {
    static const size_t widths[] = {1, 4, 32}, sizes[] = {1, 2, 4};
    for (int run = 0; run < RUNS; run++)
        for (int w = 0; w < 3; w++) {
            begin(widths[w], 2);
            long long start = now();
            write_many(NULL);
            end("write", start);
            start = now();
            read_many(NULL);
            end("read", start);
            free(words);
            free(numbers);
            for (int b = 0; b < 3; b++) {
                pthread_t writer, reader;
                begin(widths[w], sizes[b]);
                start = now();
                pthread_create(&writer, NULL, write_many, NULL);
                pthread_create(&reader, NULL, read_many, NULL);
                pthread_join(writer, NULL);
                pthread_join(reader, NULL);
                end("both", start);
                free(words);
                free(numbers);
            }
        }
}
"""


def figures_of(program):
    """For each kind, width and number of buffers: the least time, and the share of overruns in all runs."""
    found = {}
    for kind, width, buffers, taken, overruns in lines_of(program):
        found.setdefault((kind, int(width), int(buffers)), []).append((int(taken), int(overruns)))
    return {
        key: (min(taken for taken, _ in runs), sum(overruns for _, overruns in runs) / (COUNT * len(runs)))
        for key, runs in found.items()
    }


def main():
    with tempfile.TemporaryDirectory() as folder:
        loop = c_program(folder, C.replace("RUNS", str(RUNS)), "-pthread")
        source = RATTLE.replace("RUNS", str(RUNS))
        program = rattle_program(folder, "ring_speed", "ttp_base nbw_ring anyhow", source, INVARIANTS)
        ours = figures_of(program)
        theirs = figures_of(loop) if loop else {}
    for (kind, width, buffers), (taken, share) in ours.items():
        line = f"{kind:5s} width {width:2d} buffers {buffers}   ring {COUNT / taken * 1e3:7.2f} M/s, overrun {share:6.2%}"
        if theirs:
            their_taken, their_share = theirs[kind, width, buffers]
            line += f"   C {COUNT / their_taken * 1e3:7.2f} M/s, overrun {their_share:6.2%}   ratio {their_taken / taken:.2f}"
        print(line)


if __name__ == "__main__":
    main()
