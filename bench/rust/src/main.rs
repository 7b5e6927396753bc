//! The rows of texts of `crates/program_bench`, on the maps of Rust's `starlark_map`.
//!
//! usage: texts PREFIX ..
//!
//! Prints `name n ns_per_op checksum` of each line that begins with one of these: the least of 28 passes. `upstream` is
//! asked by a hash that was computed before, `upstream-hashing` by the text. Equal names mean equal work on both sides.

mod made;

use made::Texts;
use starlark_map::small_map::SmallMap;
use starlark_map::unordered_map::UnorderedMap;
use starlark_map::{Hashed, StarlarkHashValue};
use std::hint::black_box;
use std::time::Instant;

const MILLION: usize = 1_000_000;
const PASSES: usize = 28;

type Text = &'static str;

/// A map from texts to numbers. One that owns its keys clones the text that it is given.
trait TextMap: Default {
    const KEYS: &'static str;
    fn put(&mut self, text: Text, number: u64);
    fn put_hashed(&mut self, text: Hashed<Text>, number: u64);
    fn at(&self, text: Text) -> Option<u64>;
    fn at_hashed(&self, text: Hashed<Text>) -> Option<u64>;
    fn at_mut(&mut self, text: Text) -> Option<&mut u64>;
}

macro_rules! text_map {
    ($map:ty, $keys:literal, $own:expr, |$self:ident, $text:ident, $number:ident| $put_hashed:expr) => {
        impl TextMap for $map {
            const KEYS: &'static str = $keys;
            #[inline(always)]
            fn put(&mut self, text: Text, number: u64) {
                self.insert($own(text), number);
            }
            #[inline(always)]
            fn put_hashed(&mut $self, $text: Hashed<Text>, $number: u64) {
                $put_hashed;
            }
            #[inline(always)]
            fn at(&self, text: Text) -> Option<u64> {
                self.get(text).copied()
            }
            #[inline(always)]
            fn at_hashed(&self, text: Hashed<Text>) -> Option<u64> {
                self.get_hashed(text).copied()
            }
            #[inline(always)]
            fn at_mut(&mut self, text: Text) -> Option<&mut u64> {
                self.get_mut(text)
            }
        }
    };
}

text_map!(SmallMap<String, u64>, "text", String::from, |self, text, number| {
    self.insert_hashed(text.owned::<String>(), number)
});
text_map!(SmallMap<Text, u64>, "str", std::convert::identity, |self, text, number| self.insert_hashed(text, number));
// it has no insertion under a hash but by a raw entry
text_map!(UnorderedMap<String, u64>, "unordered", String::from, |self, text, number| {
    self.insert(String::from(*text.key()), number)
});

/// What a map is asked by.
trait Asks: Copy {
    const WHAT: &'static str;
    fn of(text: Text) -> Self;
    fn put<M: TextMap>(self, map: &mut M, number: u64);
    fn find<M: TextMap>(self, map: &M) -> Option<u64>;
}

impl Asks for Text {
    const WHAT: &'static str = "upstream-hashing";
    #[inline(always)]
    fn of(text: Text) -> Self {
        text
    }
    #[inline(always)]
    fn put<M: TextMap>(self, map: &mut M, number: u64) {
        map.put(self, number)
    }
    #[inline(always)]
    fn find<M: TextMap>(self, map: &M) -> Option<u64> {
        map.at(self)
    }
}

impl Asks for Hashed<Text> {
    const WHAT: &'static str = "upstream";
    #[inline(always)]
    fn of(text: Text) -> Self {
        Hashed::new(text)
    }
    #[inline(always)]
    fn put<M: TextMap>(self, map: &mut M, number: u64) {
        map.put_hashed(self, number)
    }
    #[inline(always)]
    fn find<M: TextMap>(self, map: &M) -> Option<u64> {
        map.at_hashed(self)
    }
}

/// Runs a line, if one of the prefixes asks for it. `start` makes what is there before the clock runs.
fn line<S>(name: &str, n: usize, operations: usize, start: impl FnOnce() -> S, pass: impl Fn(&S) -> u64) {
    let wanted = format!("{name} {n} ");
    if !std::env::args().skip(1).any(|prefix| wanted.starts_with(&prefix)) {
        return;
    }
    let made = start();
    let (mut least, mut sum) = (u128::MAX, 0);
    for _ in 0..PASSES {
        let start = Instant::now();
        sum = black_box(pass(black_box(&made)));
        least = least.min(start.elapsed().as_nanos());
    }
    println!("{name} {n} {:.2} {sum}", least as f64 / operations as f64);
}

/// The map of the first texts, each with its place as its number.
fn numbered<M: TextMap>(texts: &[Text], n: usize) -> M {
    let mut map = M::default();
    let mut number = 0u64;
    for &text in &texts[..n] {
        map.put(text, number);
        number = number.wrapping_add(1);
    }
    map
}

fn asked<Q: Asks>(texts: &[Text]) -> Vec<Q> {
    texts.iter().map(|&text| Q::of(text)).collect()
}

/// The sum after what the map has under each of these, and 1 for each that is not there.
#[inline(always)]
fn found<M: TextMap, Q: Asks>(map: &M, asked: &[Q], mut sum: u64) -> u64 {
    for query in asked {
        sum = sum.wrapping_add(query.find(map).unwrap_or(1));
    }
    sum
}

fn look_ups<M: TextMap, Q: Asks>(texts: &Texts) {
    let (there, absent) = texts.name_copies.split_at(made::NAMES);
    for (work, names, least) in [("t_hit", there, 0), ("t_miss", absent, 1000)] {
        for n in [4, 8, 16, 32, 64, 200, 1000, 100_000] {
            line(
                &format!("{work}.{}.{}", Q::WHAT, M::KEYS),
                n,
                MILLION,
                || (numbered::<M>(&texts.names, n), asked::<Q>(&made::drawn(names, n.max(least), MILLION))),
                |(map, asked)| found(map, asked, 0),
            );
        }
    }
}

fn attributes<M: TextMap, Q: Asks>(texts: &Texts) {
    for n in [3, 5, 8, 12] {
        line(
            &format!("t_attrs.{}.{}", Q::WHAT, M::KEYS),
            n,
            MILLION / n * n,
            || {
                let (given, again) = made::rules(texts, n, MILLION / n);
                (asked::<Q>(&given), asked::<Q>(&again))
            },
            |(given, again)| {
                let (mut sum, mut number) = (0, 0u64);
                for (block, again) in given.chunks(n).zip(again.chunks(n)) {
                    let mut map = M::default();
                    let mut next = number;
                    for &query in block {
                        query.put(&mut map, next);
                        next = next.wrapping_add(1);
                    }
                    sum = found(&map, again, sum);
                    number = number.wrapping_add(n as u64);
                }
                sum
            },
        );
    }
}

fn words<M: TextMap>(texts: &Texts) {
    let name = format!("t_words.upstream-hashing.{}", M::KEYS);
    line(&name, 5000, texts.words.len(), || (), |_| {
        let mut map = M::default();
        let mut checksum = 0u64;
        for &word in &texts.words {
            let count = if let Some(number) = map.at_mut(word) {
                *number = number.wrapping_add(1);
                *number
            } else {
                map.put(word, 1);
                1
            };
            checksum = checksum.wrapping_mul(31).wrapping_add(count);
        }
        checksum
    });
}

fn labels<M: TextMap>(texts: &Texts) {
    for n in [1000, 50_000] {
        let rounds = (MILLION / 6 / n).max(1);
        line(
            &format!("t_labels.upstream-hashing.{}", M::KEYS),
            n,
            rounds * 6 * n,
            || made::drawn(&texts.label_copies, n, 5 * n),
            |asked| (0..rounds).fold(0, |sum, _| found(&numbered::<M>(&texts.labels, n), asked, sum)),
        );
    }
}

/// Hashes alone. Their sums differ from ours, since the hash of a text does where bytes are left after the words of 8.
fn hashes(name: &str, texts: &[Text], lengths: [usize; 3]) {
    for n in lengths {
        line(name, n, MILLION, || made::drawn(texts, n, MILLION), |texts| {
            texts.iter().fold(0u64, |sum, &text| sum.wrapping_add(u64::from(StarlarkHashValue::new(text).get())))
        });
    }
}

fn on<M: TextMap>(texts: &Texts) {
    look_ups::<M, Hashed<Text>>(texts);
    look_ups::<M, Text>(texts);
    attributes::<M, Hashed<Text>>(texts);
    attributes::<M, Text>(texts);
    words::<M>(texts);
    labels::<M>(texts);
}

fn main() {
    let texts = Texts::new();
    on::<SmallMap<String, u64>>(&texts);
    on::<SmallMap<Text, u64>>(&texts);
    on::<UnorderedMap<String, u64>>(&texts);
    hashes("t_hash.upstream-hashing.str", &texts.name_copies, [64, 1000, 100_000]);
    hashes("t_hash_labels.upstream-hashing.str", &texts.label_copies, [64, 1000, 50_000]);
}
