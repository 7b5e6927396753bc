//! The texts of the workloads, out of streams of numbers. All are leaked.

use std::collections::HashSet;

/// The names that stand in maps; as many follow that stand in none.
pub const NAMES: usize = 100_000;

fn after(x: &mut u64) -> u64 {
    *x ^= *x << 13;
    *x ^= *x >> 7;
    *x ^= *x << 17;
    *x
}

/// The next number of a stream below `end`.
fn below(x: &mut u64, end: u64) -> usize {
    ((after(x) >> 32) % end) as usize
}

/// As many of the first `n` texts as asked for.
pub fn drawn(texts: &[&'static str], n: usize, len: usize) -> Vec<&'static str> {
    let mut x = 0x85eb_ca6bu32;
    (0..len)
        .map(|_| {
            x ^= x << 13;
            x ^= x >> 17;
            x ^= x << 5;
            texts[x as usize % n]
        })
        .collect()
}

/// Where identifiers take their signs from: the first 27 may begin one.
const SIGNS: &[u8] = b"abcdefghijklmnopqrstuvwxyz_0123456789";

/// So many identifiers, of which no two are equal.
fn identifiers(mut x: u64, shortest: usize, lengths: u64, signs: u64, count: usize) -> Vec<String> {
    let mut seen = HashSet::new();
    let mut texts = Vec::with_capacity(count);
    while texts.len() < count {
        let len = shortest + below(&mut x, lengths);
        let mut text = String::from(SIGNS[below(&mut x, signs.min(27))] as char);
        for _ in 1..len {
            text.push(SIGNS[below(&mut x, signs)] as char);
        }
        if seen.insert(text.clone()) {
            texts.push(text);
        }
    }
    texts
}

const FOLDERS: [&str; 16] = [
    "src", "lib", "core", "util", "tools", "third_party", "rust", "python", "java", "net", "http", "json", "parser",
    "runtime", "compiler", "analysis",
];
const TARGETS: [&str; 8] = ["target", "library", "tests", "main", "proto", "bindings", "headers", "data"];

/// So many labels of targets, as `//util/src/dir7:target_123`, of which no two are equal.
fn labels(count: usize) -> Vec<String> {
    let mut x = 0xd1b5_4a32_d192_ed03;
    (0..count)
        .map(|number| {
            let package = FOLDERS[below(&mut x, 16)];
            let folder = FOLDERS[below(&mut x, 16)];
            let inner = below(&mut x, 10);
            let target = TARGETS[below(&mut x, 8)];
            format!("//{package}/{folder}/dir{inner}:{target}_{number}")
        })
        .collect()
}

/// The attributes of rules, as they are named in build files.
const ATTRIBUTES: [&str; 40] = [
    "name", "srcs", "deps", "visibility", "hdrs", "copts", "linkopts", "data", "tags", "testonly", "licenses",
    "features", "defines", "includes", "outs", "cmd", "tools", "args", "env", "size", "timeout", "flaky",
    "shard_count", "main", "crate_name", "edition", "rustc_flags", "exported_deps", "exported_headers",
    "compiler_flags", "resources", "out", "executable", "compatible_with", "exec_properties", "toolchains", "labels",
    "contacts", "within_view", "metadata",
];

/// The attributes of so many rules of `n` attributes each, in the order in which they are given and in that in which
/// they are asked for.
pub fn rules(texts: &Texts, n: usize, count: usize) -> (Vec<&'static str>, Vec<&'static str>) {
    let mut x = 0xbf58_476d_1ce4_e5b9;
    let (mut given, mut asked) = (Vec::new(), Vec::new());
    for _ in 0..count {
        let first = below(&mut x, 40);
        let step = [1, 3, 7, 9, 11, 13, 17, 19][below(&mut x, 8)];
        given.extend((0..n).map(|k| texts.attributes[(first + k * step) % 40]));
        let begin = below(&mut x, 12);
        let stride = [1, 7, 11, 13][below(&mut x, 4)];
        asked.extend((0..n).map(|k| texts.attribute_copies[(first + (begin + k * stride) % n * step) % 40]));
    }
    (given, asked)
}

/// A text of 200,000 of these words, the k-th of them about 1/k as often as the first.
fn prose(words: &[String]) -> String {
    let mut x = 0x94d0_49bb_1331_11eb;
    let mut text: Vec<&str> = Vec::new();
    for _ in 0..200_000 {
        let octave = below(&mut x, 13);
        let first = (1usize << octave) - 1;
        text.push(&words[first + below(&mut x, (1u64 << octave).min((words.len() - first) as u64))]);
    }
    text.join(" ")
}

fn leaked<T: AsRef<str>>(texts: &[T]) -> Vec<&'static str> {
    texts.iter().map(|text| &*Box::leak(text.as_ref().to_owned().into_boxed_str())).collect()
}

/// The texts, and of each a copy at another address.
pub struct Texts {
    pub names: Vec<&'static str>,
    pub name_copies: Vec<&'static str>,
    pub labels: Vec<&'static str>,
    pub label_copies: Vec<&'static str>,
    attributes: Vec<&'static str>,
    attribute_copies: Vec<&'static str>,
    pub words: Vec<&'static str>,
}

impl Texts {
    pub fn new() -> Texts {
        let names = identifiers(0x9e37_79b9_7f4a_7c15, 3, 16, 37, 2 * NAMES);
        let labels = labels(50_000);
        let text = leaked(&[prose(&identifiers(0x2545_f491_4f6c_dd1d, 2, 10, 26, 5000))])[0];
        Texts {
            names: leaked(&names),
            name_copies: leaked(&names),
            labels: leaked(&labels),
            label_copies: leaked(&labels),
            attributes: leaked(&ATTRIBUTES),
            attribute_copies: leaked(&ATTRIBUTES),
            words: text.split(' ').collect(),
        }
    }
}
