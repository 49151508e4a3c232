#!/usr/bin/env python3
"""Times `Check` over buffers of 16, 64 and 256 bytes and of 1 MiB, beside a byte-table loop in C.

It builds a program over ttp_frame in a temporary repository, which proves what `rt` has not proved
before, and, where there is a C compiler, the same loop in C at -O2. Each takes the word of a buffer
many times, each from the word before; both must get the same words. For each size it prints the
bytes a second of both, by the least time of some runs, and the ratio. It prints figures alone;
nothing passes or fails here.
"""

import sys
import tempfile

from programs import c_program, lines_of, rattle_program

RUNS = 9
TIMES = {16: 4_000_000, 64: 1_000_000, 256: 250_000, 1_048_576: 64}

RATTLE = """//! Prints for each size and run: size, times, nanoseconds, word.
#![tactic(auto)]

use std::io;
use std::time::{Clock, Instant};
use ttp_frame::check_word::Check;

#[inline(never)]
fn word_of(bytes: &[u8], times: u32) -> u32 {
    let mut check = Check::new(1);
    for _ in 0..times {
        check.feed(bytes);
    }
    check.word()
}

fn time_of(rt: &(impl Print + Clock), bytes: &[u8], times: u32) -> io::Result<()> {
    let start = Instant::now(rt)?;
    let word = word_of(bytes, times);
    let taken = start.elapsed(rt)?;
    println!(rt; "{} {} {} {}", bytes.len(), times, taken.as_nanos(), word)
}

fn times_of(rt: &(impl Print + Clock), bytes: &[u8]) -> io::Result<()> {
    for (size, times) in [ROWS] {
        if size <= bytes.len() {
            for _ in 0..RUNS {
                time_of(rt, &bytes[..size], times)?;
            }
        }
    }
    Ok(())
}

fn main(rt: HostRuntime) -> io::Result<()> {
    let mut bytes = vec![in rt.alloc(); 0u8; 1_048_576]?;
    let mut number = 1u32;
    for byte in bytes.iter_mut() {
        number = number.wrapping_mul(1_664_525).wrapping_add(1_013_904_223);
        *byte = (number >> 24) as u8;
    }
    times_of(&rt, &bytes)
}
"""

C = """#include <stdint.h>
#include <stdio.h>
#include <time.h>

static uint32_t words[256];
static uint8_t bytes[1048576];

__attribute__((noinline)) static uint32_t word_after(uint32_t word, const uint8_t *from, size_t size) {
    for (size_t k = 0; k < size; k++)
        word = ((word << 8) & 0xffffff) ^ words[(uint8_t)(word >> 16) ^ from[k]];
    return word;
}

static void time_of(size_t size, uint32_t times) {
    struct timespec start, end;
    uint32_t word = 1;
    clock_gettime(CLOCK_MONOTONIC, &start);
    for (uint32_t k = 0; k < times; k++)
        word = word_after(word, bytes, size);
    clock_gettime(CLOCK_MONOTONIC, &end);
    long long taken = (end.tv_sec - start.tv_sec) * 1000000000LL + end.tv_nsec - start.tv_nsec;
    printf("%zu %u %lld %u\\n", size, times, taken, word);
}

int main(void) {
    static const struct { size_t size; uint32_t times; } rows[] = {ROWS};
    for (uint32_t byte = 0; byte < 256; byte++) {
        uint32_t word = byte << 16;
        for (int k = 0; k < 8; k++)
            word = (word & 0x800000) ? ((word << 1) ^ 0x5d6dcb) & 0xffffff : word << 1;
        words[byte] = word;
    }
    uint32_t number = 1;
    for (size_t k = 0; k < sizeof bytes; k++) {
        number = number * 1664525u + 1013904223u;
        bytes[k] = number >> 24;
    }
    for (size_t row = 0; row < sizeof rows / sizeof rows[0]; row++)
        for (int run = 0; run < RUNS; run++)
            time_of(rows[row].size, rows[row].times);
}
"""


def filled(text, left, right):
    rows = ", ".join(f"{left}{size}, {times}{right}" for size, times in TIMES.items())
    return text.replace("ROWS", rows).replace("RUNS", str(RUNS))


def figures_of(program):
    least, words = {}, {}
    for line in lines_of(program):
        size, times, taken, word = (int(part) for part in line)
        speed = size * times / taken * 1e9
        least[size] = max(speed, least.get(size, 0))
        words[size] = word
    return least, words


def main():
    with tempfile.TemporaryDirectory() as folder:
        loop = c_program(folder, filled(C, "{", "}"))
        ours, words = figures_of(rattle_program(folder, "check_speed", "ttp_frame", filled(RATTLE, "(", ")")))
        theirs, their_words = figures_of(loop) if loop else ({}, words)
        if words != their_words:
            sys.exit(f"the words differ: {words} {their_words}")
        for size, speed in ours.items():
            line = f"{size:8d} bytes   Check {speed / 1e6:8.1f} MB/s"
            if loop:
                line += f"   C at -O2 {theirs[size] / 1e6:8.1f} MB/s   ratio {speed / theirs[size]:.2f}"
            print(line)


if __name__ == "__main__":
    main()
