//! A table by hand: an answer for each type and token, in one list.
//!
//! Draws a type and a token as many times as the last argument says; each draw rests on the answer before. The first
//! argument is `draw`, which reads nothing, `load` or `unchecked`, which read the answer with a test of the place or without;
//! then come how many types and how many tokens there are.

use std::env;
use std::hint::black_box;

struct Table {
    entries: Vec<u32>,
    tokens: usize,
}

impl Table {
    #[inline(always)]
    fn select(&self, t: u32, k: u32) -> u32 {
        self.entries[t as usize * self.tokens + k as usize]
    }

    #[inline(always)]
    fn select_unchecked(&self, t: u32, k: u32) -> u32 {
        unsafe { *self.entries.get_unchecked(t as usize * self.tokens + k as usize) }
    }
}

fn stepped(state: u64) -> u64 {
    state.wrapping_mul(6364136223846793005).wrapping_add(1442695040888963407)
}

#[inline(always)]
fn drawn(types: u32, tokens: u32, asked: u32, answer: impl Fn(u32, u32) -> u32) -> u64 {
    let mut state = 1u64;
    for _ in 0..asked {
        state = stepped(state);
        let t = (state >> 33) % u64::from(types);
        let k = (state >> 40) % u64::from(tokens);
        state = state.wrapping_add(u64::from(answer(t as u32, k as u32)));
    }
    state
}

fn main() {
    let words: Vec<String> = env::args().collect();
    let [types, tokens, asked] = [2, 3, 4].map(|at| words[at].parse::<u32>().unwrap());
    let entries = vec![7u32; types as usize * tokens as usize];
    let table = black_box(Table { entries, tokens: tokens as usize });
    let state = match words[1].as_str() {
        "load" => drawn(types, tokens, asked, |t, k| table.select(t, k)),
        "unchecked" => drawn(types, tokens, asked, |t, k| table.select_unchecked(t, k)),
        _ => drawn(types, tokens, asked, |t, k| t & k & 1),
    };
    println!("{state}");
}
