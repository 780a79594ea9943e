//! Texts of every sort: rules drawn from the grammar, with their words or bytes damaged.

use super::{any_of, sort, Sort};
use crate::generate::{wait, Random};
use crate::sheet::Type;
use crate::text::Wanted::{self, *};
use crate::text::LONGEST;
use crate::trees::Tree;

/// All sorts.
pub const SORTS: [Sort; 14] = [
    sort("text, single blanks", 22, |random| plain(&some_words(random))),
    sort("text, more blanks", 18, |random| spaced(&some_words(random), random)),
    sort("text, about 64 nodes", 8, about_64_nodes),
    sort("text, a word dropped", 6, |random| with_words(random, drop_word)),
    sort("text, a word added", 6, |random| with_words(random, add_word)),
    sort("text, words exchanged", 5, |random| with_words(random, exchange_words)),
    sort("text, a word changed", 9, |random| with_words(random, change_word)),
    sort("text, bytes changed", 9, bytes_changed),
    sort("text, cut", 5, cut),
    sort("text, about 1,024 bytes", 5, about_1024_bytes),
    sort(FAR_TOO_LONG, 1, far_too_long),
    sort("text, deep", 3, deep),
    sort("text, any words", 2, any_words),
    sort("text, any bytes", 2, any_bytes),
];

/// The name of the sort whose texts have over 65,535 bytes.
pub const FAR_TOO_LONG: &str = "text, far too long";

/// A text and the name of its sort.
pub fn any_text(random: &mut Random) -> (&'static str, Vec<u8>) {
    any_of(&SORTS, random)
}

/// An action list: mostly 1 to 16, seldom none or 17.
pub fn any_actions(random: &mut Random) -> Vec<u16> {
    let count = match random.below(100) {
        0..=1 => 0,
        2..=3 => 17,
        4..=69 => 1 + random.below(5),
        _ => 1 + random.below(16),
    };
    let combined = random.chance(50);
    (0..count)
        .map(|action| if combined { random.draw() as u16 & random.draw() as u16 } else { 1 << (action % 16) })
        .collect()
}

/// What may stand where a formula, a watched or an enforced policy is wanted: kinds, with what follows each.
const FORMULAS: [(u8, &[Wanted]); 8] =
    [(1, &[]), (2, &[]), (3, &[]), (3, &[]), (3, &[]), (4, &[A]), (5, &[A, A]), (6, &[A, A])];
const WATCHED: [(u8, &[Wanted]); 9] = [
    (10, &[A]),
    (12, &[]),
    (13, &[E]),
    (14, &[W, W]),
    (15, &[W, W]),
    (16, &[W]),
    (18, &[W, W]),
    (20, &[W, W]),
    (23, &[A, W]),
];
const ENFORCED: [(u8, &[Wanted]); 9] = [
    (11, &[A]),
    (13, &[W]),
    (14, &[E, E]),
    (15, &[E, E]),
    (17, &[E]),
    (19, &[W, E]),
    (21, &[W, E]),
    (22, &[W, E, E]),
    (23, &[A, E]),
];

/// The fewest nodes.
fn fewest(wanted: Wanted) -> usize {
    match wanted {
        A | W => 1,
        E => 2,
    }
}

/// A formula or a policy of so many nodes.
fn grown(random: &mut Random, wanted: Wanted, nodes: usize) -> Tree {
    let kinds: &[(u8, &[Wanted])] = match wanted {
        A => &FORMULAS,
        W => &WATCHED,
        E => &ENFORCED,
    };
    let (kind, wanted) = loop {
        let (kind, parts) = random.pick(kinds);
        let fewest = 1 + parts.iter().copied().map(fewest).sum::<usize>();
        let fits = if parts.is_empty() { nodes == 1 } else { fewest <= nodes };
        // No large formulas, mostly.
        let large = matches!(kind, 10 | 11) && nodes > 5 && random.chance(90);
        if fits && !large {
            break (kind, parts);
        }
    };
    let mut spare = nodes - 1 - wanted.iter().copied().map(fewest).sum::<usize>();
    let mut parts = Vec::new();
    for (place, &part) in wanted.iter().enumerate() {
        let last = place + 1 == wanted.len();
        let formula = part == A && kind == 23;
        let more = match spare {
            spare if last => spare,
            spare if formula => random.below(spare.min(2) + 1),
            spare => random.below(spare + 1),
        };
        spare -= more;
        parts.push(grown(random, part, fewest(part) + more));
    }
    Tree::new(kind, argument(random, kind, &parts), parts)
}

fn argument(random: &mut Random, kind: u8, parts: &[Tree]) -> u8 {
    match kind {
        3 if random.chance(80) => random.below(4) as u8,
        3 => random.below(16) as u8,
        12 if random.chance(80) => 1 + random.below(4) as u8,
        12 => 1 + random.below(60) as u8,
        22 => wait(random, type_of(&parts[0])),
        _ => 0,
    }
}

/// The type of a policy, which a text never has wrong.
fn type_of(policy: &Tree) -> Type {
    let types = policy.unshared_sheet(&[0]).types().expect("well typed");
    types[types.len() - 1]
}

/// A rule of so many nodes, two or more: its first word, and its policy.
pub fn rule(random: &mut Random, nodes: usize) -> (&'static str, Tree) {
    let (first, wanted) = random.pick(&[("watch", W), ("enforce", E)]);
    (first, grown(random, wanted, nodes))
}

/// An enforced policy of so many nodes, two or more.
pub fn enforced(random: &mut Random, nodes: usize) -> Tree {
    grown(random, E, nodes)
}

/// All words of a drawn rule.
fn rule_words(random: &mut Random, nodes: usize) -> Vec<String> {
    let (first, policy) = rule(random, nodes);
    [vec![first.to_string()], policy.words()].concat()
}

fn some_words(random: &mut Random) -> Vec<String> {
    let nodes = if random.chance(80) { 2 + random.below(14) } else { 2 + random.below(63) };
    rule_words(random, nodes)
}

/// The words parted by single blanks.
fn plain(words: &[String]) -> Vec<u8> {
    words.join(" ").into_bytes()
}

/// The words with more blanks and newlines, at both ends too.
fn spaced(words: &[String], random: &mut Random) -> Vec<u8> {
    let often = random.pick(&[5, 30, 70]);
    let mut text = Vec::new();
    for (place, word) in words.iter().enumerate() {
        if place > 0 {
            text.push(random.pick(b"  \n"));
        }
        while random.chance(often) {
            text.push(random.pick(b"  \n"));
        }
        text.extend(word.bytes());
    }
    while random.chance(50) {
        text.push(random.pick(b" \n"));
    }
    text
}

/// As plain or spaced as it comes.
fn written(random: &mut Random, words: &[String]) -> Vec<u8> {
    if random.chance(60) {
        plain(words)
    } else {
        spaced(words, random)
    }
}

/// 60 to 70 nodes; some have a fault too.
fn about_64_nodes(random: &mut Random) -> Vec<u8> {
    let nodes = if random.chance(50) { 64 + random.below(2) } else { 60 + random.below(11) };
    let mut words = rule_words(random, nodes);
    if random.chance(15) {
        words = change_word(random, words);
    }
    written(random, &words)
}

/// Words of the language, and words that are nearly such.
const WORDS: &str = "watch enforce now holds count not and or eventually always before after fulfilling ignoring \
    true false p0 p1 p9 p10 p15 1 2 9 10 30 59 60";
const STRAYS: &str = "p16 p00 p01 p015 p19 p20 p99 p255 p256 p pp0 p0p1 p1x p-1 0 00 01 060 61 69 70 99 100 256 257 \
    316 65537 18446744073709551617 1x x1 -1 +1 no nows tru truee watches enforced whenever count1 a z after-";

fn any_word(random: &mut Random) -> String {
    let words = if random.chance(65) { WORDS } else { STRAYS };
    random.pick(&words.split(' ').collect::<Vec<_>>()).into()
}

/// A text whose words are changed once, seldom twice.
fn with_words(random: &mut Random, change: fn(&mut Random, Vec<String>) -> Vec<String>) -> Vec<u8> {
    let mut words = some_words(random);
    words = change(random, words);
    if random.chance(15) {
        words = change(random, words);
    }
    written(random, &words)
}

fn drop_word(random: &mut Random, mut words: Vec<String>) -> Vec<String> {
    words.remove(random.below(words.len()));
    words
}

fn add_word(random: &mut Random, mut words: Vec<String>) -> Vec<String> {
    let place = if random.chance(25) { words.len() } else { random.below(words.len() + 1) };
    words.insert(place, any_word(random));
    words
}

fn exchange_words(random: &mut Random, mut words: Vec<String>) -> Vec<String> {
    let (one, two) = (random.below(words.len()), random.below(words.len()));
    words.swap(one, two);
    words
}

/// Another word, or the same with a zero before it or a byte behind it; mostly of a number.
fn change_word(random: &mut Random, mut words: Vec<String>) -> Vec<String> {
    let numbered = |&place: &usize| words[place].ends_with(|end: char| end.is_ascii_digit());
    let numbers: Vec<usize> = (0..words.len()).filter(numbered).collect();
    let any = numbers.is_empty() || random.chance(50);
    let place = if any { random.below(words.len()) } else { random.pick(&numbers) };
    words[place] = match random.below(4) {
        0 => format!("0{}", words[place]),
        1 => format!("{}{}", words[place], random.pick(&["0", "1", "5", "6", "s"])),
        _ => any_word(random),
    };
    words
}

/// A few bytes changed, dropped or added.
fn bytes_changed(random: &mut Random) -> Vec<u8> {
    let words = some_words(random);
    let mut text = written(random, &words);
    for _ in 0..random.pick(&[1, 1, 1, 2, 3]) {
        let place = random.below(text.len());
        let byte = match random.below(6) {
            0 => text[place].to_ascii_uppercase(),
            1 => random.pick(b"\t\r\0\x0b\x0c\x1f\x21"),
            2 => random.pick(&[128, 133, 160, 195, 226, 254, 255, text[place] | 128]),
            3 => random.pick(b"  \n"),
            4 => random.pick(b"0169apz"),
            _ => random.byte(),
        };
        match random.below(4) {
            0 => text.insert(place, byte),
            1 if text.len() > 1 => drop(text.remove(place)),
            _ => text[place] = byte,
        }
    }
    text
}

/// Cut off anywhere, in a word or behind it.
fn cut(random: &mut Random) -> Vec<u8> {
    let words = some_words(random);
    let mut text = written(random, &words);
    text.truncate(random.below(text.len() + 1));
    text
}

/// Lengthened to about 1,024 bytes, seldom to 3,000, by blanks anywhere, or by a word.
fn about_1024_bytes(random: &mut Random) -> Vec<u8> {
    let words = some_words(random);
    let mut text = written(random, &words);
    let length = if random.chance(80) { LONGEST - 3 + random.below(7) } else { LONGEST + random.below(1977) };
    let gaps: Vec<usize> = (0..=text.len()).filter(|&n| n == 0 || n == text.len() || text[n] == b' ').collect();
    let place = random.pick(&gaps);
    let byte = if random.chance(85) { random.pick(b" \n") } else { random.pick(b"ap1\0") };
    let more = length.saturating_sub(text.len());
    text.splice(place..place, std::iter::repeat_n(byte, more));
    text
}

/// Over 65,535 bytes, a rule at its front; with 16 bits its length would be one that is read.
fn far_too_long(random: &mut Random) -> Vec<u8> {
    let mut text = plain(&some_words(random));
    let length = (1 << 16) + text.len().max(random.below(LONGEST + 1));
    text.resize(length, b' ');
    text
}

/// One word again and again, up to about 1,024 bytes; sometimes with an end that fits.
fn deep(random: &mut Random) -> Vec<u8> {
    let (first, again, end) = random.pick(&[
        ("enforce", "or", "holds true"),
        ("watch", "or", "count 1"),
        ("watch now", "or", "p0"),
        ("watch now", "not", "p0"),
        ("enforce holds", "and", "true"),
        ("watch", "not not", "count 1"),
        ("enforce", "not", "count 2"),
        ("watch", "eventually", "now p1"),
        ("enforce", "always", "holds p1"),
        ("enforce", "after count 1", "holds p1"),
        ("watch", "after count 1", "now p1"),
        ("enforce", "before count 2", "holds p1"),
        ("enforce", "fulfilling 1 count 1 holds true", "holds p1"),
        ("enforce", "fulfilling 3 eventually now p0 holds true", "holds p1"),
        ("watch", "ignoring p0", "count 3"),
    ]);
    let most = (LONGEST - first.len() - end.len() - 1) / (again.len() + 1);
    let times = if random.chance(50) { most - 2 + random.below(6) } else { random.below(most) };
    let end = if random.chance(70) { end } else { "" };
    format!("{first} {}{end}", format!("{again} ").repeat(times)).into_bytes()
}

fn any_words(random: &mut Random) -> Vec<u8> {
    let words: Vec<String> = (0..random.below(12)).map(|_| any_word(random)).collect();
    let first = random.chance(80).then(|| random.pick(&["watch", "enforce"]).to_string());
    let words: Vec<String> = first.into_iter().chain(words).collect();
    written(random, &words)
}

fn any_bytes(random: &mut Random) -> Vec<u8> {
    let mut text = vec![0; random.below(40)];
    random.fill(&mut text);
    if random.chance(50) {
        text.iter_mut().for_each(|byte| *byte = b" \nabdefhlnoprstuwy0126\t"[*byte as usize % 23]);
    }
    text
}
