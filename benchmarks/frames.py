#!/usr/bin/env python3
"""Times `encode` and `judge` over frames with implicit and with explicit C-state.

It builds a program over ttp_frame in a temporary repository, which proves what `rt` has not proved
before, and, where there is a C compiler, the same in C at -O2 with a byte table. Each frame has another time in its
C-state; it is encoded into the same buffer, and bytes are judged with a C-state of another time. For each kind and
size it prints the frames encoded and judged a second of both, by the least time of some runs, and the ratio. Both must
match as often. It prints figures alone; nothing passes or fails here.
"""

import sys
import tempfile

from programs import c_program, lines_of, rattle_program

RUNS = 9
KINDS = {0: "implicit", 1: "explicit", 2: "explicit with payload"}
ROWS = ((0, 0, 2_000_000), (0, 16, 1_000_000), (0, 240, 200_000), (1, 0, 2_000_000), (2, 16, 1_000_000), (2, 240, 200_000))

RATTLE = """//! Prints for each row and run: header, size, times, nanoseconds of encode, nanoseconds of judge.
#![tactic(auto)]
ghost use Rattle.std.specs.Prelude.{◌≡◌, false, [], length};
ghost use Rattle.ttp_frame.specs.Shape.{IsFrameShape};

use std::io;
use std::time::{Clock, Instant};
use ttp_base::NodeSet;
use ttp_frame::{Expect, FrameIn, FrameMatch, encode, judge};
use ttp_world::CState;

fn state(k: u32) -> CState
    ensures { result.members ≡ [] }
{
    CState {
        time: (k & 0xffff) as u16,
        round: 1,
        slot: 2,
        members: NodeSet::empty(),
    }
}

#[inline(never)]
fn encode_all(out: &mut [u8; 256], header: u8, payload: &[u8], times: u32) -> usize
    requires { IsFrameShape header (length payload.now) }
{
    let mut last = 0;
    for k in 0..times {
        let frame = FrameIn {
            wide: false,
            header,
            cstate: state(k),
            payload,
        };
        last = encode(&frame, 1, out);
    }
    last
}

#[inline(never)]
fn judge_all(bytes: &[u8], expect: &Expect, times: u32) -> u32
    requires shape { IsFrameShape expect.now.header expect.now.payload }
    requires wide { expect.now.wide ≡ false }
{
    let mut matches = 0u32;
    for k in 0..times {
        if judge(bytes, 1, expect, &state(k)) == FrameMatch::Match {
            matches = matches.wrapping_add(1);
        }
    }
    matches
}

fn time_of(rt: &(impl Print + Clock), header: u8, size: u8, times: u32) -> io::Result<()>
    requires { IsFrameShape header size }
{
    let payload = [0x5au8; 240];
    let mut out = [0u8; 256];
    let start = Instant::now(rt)?;
    let len = encode_all(&mut out, header, &payload[..size as usize], times);
    let encoded = start.elapsed(rt)?;
    let expect = Expect {
        wide: false,
        header,
        payload: size,
    };
    let start = Instant::now(rt)?;
    let matches = judge_all(&out[..len.min(256)], &expect, times);
    let judged = start.elapsed(rt)?;
    println!(rt; "{} {} {} {} {} {}", header, size, times, encoded.as_nanos(), judged.as_nanos(), matches)
}

fn main(rt: HostRuntime) -> io::Result<()> {
    for _ in 0..RUNS {
        LINES
    }
    Ok(())
}
"""


C = """#include <stdint.h>
#include <stdio.h>
#include <string.h>
#include <time.h>

static uint32_t words[256];
static uint8_t payload[240], out[256];

static uint32_t word_after(uint32_t word, const uint8_t *from, size_t size) {
    for (size_t k = 0; k < size; k++)
        word = ((word << 8) & 0xffffff) ^ words[(uint8_t)(word >> 16) ^ from[k]];
    return word;
}

static uint32_t word_of(uint8_t header, const uint8_t *state, const uint8_t *bytes, size_t size) {
    return word_after(header ? 1 : word_after(1, state, 6), bytes, size);
}

static void put_state(uint8_t *state, uint32_t k) {
    const uint8_t bytes[6] = {k >> 8, k, 1, 2, 0, 0};
    memcpy(state, bytes, 6);
}

__attribute__((noinline)) static size_t encode(uint8_t header, const uint8_t *state, size_t size) {
    size_t length = 1;
    out[0] = header;
    if (header) {
        memcpy(out + 1, state, 6);
        length = 7;
    }
    memcpy(out + length, payload, size);
    length += size;
    uint32_t word = word_of(header, state, out, length);
    out[length] = word >> 16;
    out[length + 1] = word >> 8;
    out[length + 2] = word;
    return length + 3;
}

__attribute__((noinline)) static int judge(uint8_t header, const uint8_t *state, size_t size, const uint8_t *bytes, size_t length) {
    if (length != 1 + (header ? 6 : 0) + size + 3 || bytes[0] != header)
        return 2;
    uint32_t word = word_of(header, state, bytes, length - 3);
    if (bytes[length - 3] != (uint8_t)(word >> 16) || bytes[length - 2] != (uint8_t)(word >> 8) || bytes[length - 1] != (uint8_t)word)
        return header ? 2 : 1;
    return header && memcmp(bytes + 1, state, 6) != 0;
}

static long long now(void) {
    struct timespec time;
    clock_gettime(CLOCK_MONOTONIC, &time);
    return time.tv_sec * 1000000000LL + time.tv_nsec;
}

static void time_of(uint8_t header, size_t size, uint32_t times) {
    uint8_t state[6];
    size_t length = 0;
    uint32_t matches = 0;
    long long start = now();
    for (uint32_t k = 0; k < times; k++) {
        put_state(state, k);
        length = encode(header, state, size);
    }
    long long encoded = now() - start;
    start = now();
    for (uint32_t k = 0; k < times; k++) {
        put_state(state, k);
        matches += judge(header, state, size, out, length) == 0;
    }
    printf("%u %zu %u %lld %lld %u\\n", header, size, times, encoded, now() - start, matches);
}

int main(void) {
    for (uint32_t byte = 0; byte < 256; byte++) {
        uint32_t word = byte << 16;
        for (int k = 0; k < 8; k++)
            word = (word & 0x800000) ? ((word << 1) ^ 0x5d6dcb) & 0xffffff : word << 1;
        words[byte] = word;
    }
    memset(payload, 0x5a, sizeof payload);
    for (int run = 0; run < RUNS; run++) {
        LINES
    }
}
"""


def filled(text, call):
    """A program's text, with a call for each row."""
    calls = "\n        ".join(call.format(header, size, times) for header, size, times in ROWS)
    return text.replace("LINES", calls).replace("RUNS", str(RUNS))


def figures_of(program):
    """For each header and size: the most frames encoded and judged a second, and how many matched in a run."""
    best, matched = {}, {}
    for line in lines_of(program):
        header, size, times, encoded, judged, matches = (int(part) for part in line)
        speeds = times / encoded * 1e9, times / judged * 1e9
        best[header, size] = tuple(map(max, speeds, best.get((header, size), speeds)))
        matched[header, size] = matches
    return best, matched


def main():
    with tempfile.TemporaryDirectory() as folder:
        loop = c_program(folder, filled(C, "time_of({}, {}, {});"))
        program = rattle_program(folder, "frame_speed", "ttp_base ttp_world ttp_frame", filled(RATTLE, "time_of(&rt, {}, {}, {})?;"))
        ours, matched = figures_of(program)
        theirs, their_matched = figures_of(loop) if loop else ({}, matched)
    if matched != their_matched:
        sys.exit(f"the answers differ: {matched} {their_matched}")
    for (header, size), speeds in ours.items():
        line = f"{KINDS[header]:22s} {size:3d} bytes of payload"
        for name, speed, k in zip(("encode", "judge"), speeds, (0, 1)):
            line += f"   {name} {speed / 1e6:6.2f} M/s"
            if theirs:
                line += f", in C {theirs[header, size][k] / 1e6:6.2f} M/s, ratio {speed / theirs[header, size][k]:.2f}"
        print(line)


if __name__ == "__main__":
    main()
