//! The reader of texts against stated answers, against the grammar as it is stated, and against the house rules' sheets.

use reference::cases::house::House;
use reference::cases::texts::{all, Reading, TextCase};
use reference::cases::{house, table_bytes, type_byte, Stated};
use reference::generate::Random;
use reference::inputs::texts::{any_actions, any_text, rule};
use reference::sheet::{Sheet, Type};
use reference::trees::{ROASTERY, TWO};
use reference::{calls, compile, read_text, Refusal};
use std::collections::{BTreeMap, BTreeSet, HashMap};

/// The file of the house rules that are joined.
const JOINED: &str = "the_seven_rules";

/// The answer's four fields and the output behind the call, which was full of this byte.
const BEFORE: u8 = 170;

fn called(text: &[u8], actions: &[u16], output: usize) -> ([u16; 4], Vec<u8>) {
    let mut out = vec![BEFORE; output];
    let answer = calls::read_text(text, actions, &mut out);
    (calls::fields(answer), out)
}

/// Holds a case to what is stated.
fn check(case: &TextCase) {
    let TextCase { name, output, actions, text, stated } = case;
    let ([number, value, count, nodes], out) = called(text, actions, *output);
    if let Reading::Refused(stated, spot) = stated {
        assert_eq!([number, value, count, nodes], [*stated as u16, *spot, 0, 0], "{name}");
        assert_eq!(out, vec![BEFORE; *output], "{name}");
        return;
    }
    assert_eq!((number, count as usize), (0, actions.len()), "{name}");
    assert_eq!(value, 10 + 2 * count + 5 * nodes, "{name}");
    let (sheet, behind) = out.split_at(value as usize);
    assert!(behind.iter().all(|&byte| byte == BEFORE), "{name}");
    let read = Sheet::read(sheet).expect(name);
    assert_eq!(read.bytes(), sheet, "{name}");
    assert_eq!((&read.actions, read.nodes.len()), (actions, nodes as usize), "{name}");
    let compiled = compile(sheet);
    match stated {
        Reading::Refused(..) => unreachable!("seen to above"),
        Reading::Count(count) => assert_eq!(read.nodes.len(), *count, "{name}"),
        Reading::Nodes(nodes) => assert_eq!(sheet[10 + 2 * actions.len()..], nodes.concat(), "{name}"),
        Reading::As(other) => assert_eq!(compiled, compile(other), "{name}"),
        Reading::Compiles(Stated::Table(text)) => assert_eq!(compiled, Ok(table_bytes(text)), "{name}"),
        Reading::Compiles(Stated::Rows(kind, rows)) => {
            let table = compiled.expect(name);
            assert_eq!((table[0], table[4] as usize), (type_byte(kind), *rows), "{name}");
        }
        Reading::Compiles(Stated::Refused(number, spot)) => {
            assert_eq!(compiled, Err(Refusal { number: *number, spot: (*spot).into() }), "{name}")
        }
    }
}

#[test]
fn stated_texts() {
    all().iter().for_each(check);
}

#[test]
fn a_sheet_to_the_byte() {
    let (answer, out) = called(b"enforce not now p1", &TWO, 400);
    let sheet = [
        [2, 0, 3, 0, 10, 0, 14, 0, 29, 0].to_vec(),
        [1, 0, 2, 0].to_vec(),
        [3, 1, 0, 0, 0].to_vec(),
        [10, 0, 0, 0, 0].to_vec(),
        [13, 0, 1, 0, 0].to_vec(),
    ]
    .concat();
    assert_eq!(answer, [0, 29, 2, 3]);
    assert_eq!(out, [sheet, vec![BEFORE; 371]].concat());
}

/// Outputs under 362 bytes are 14, whatever else is wrong; longer ones are as good as 362.
#[test]
fn every_output_length() {
    for output in 0..=400 {
        let number = |text: &str, actions: usize| called(text.as_bytes(), &vec![1; actions], output).0[0];
        let short = output < 362;
        assert_eq!(number("watch now p0", 4), if short { 14 } else { 0 });
        assert_eq!(number("watch", 17), if short { 14 } else { 2 });
    }
}

/// Each house rule's text gives the table of its sheet, and every file of a rule is tried.
#[test]
fn house_rules() {
    for house in house::RULES.iter().chain([&house::WITHIN, &house::REPORT]) {
        let sheet = read_text(house.text().as_bytes(), &house.actions()).expect(house.name);
        assert_eq!(sheet.actions, Sheet::read(house.sheet).unwrap().actions, "{}", house.name);
        let table = compile(&sheet.bytes());
        assert!(table.is_ok(), "{}", house.name);
        assert_eq!(table, compile(house.sheet), "{}", house.name);
    }
    let others = [&house::WITHIN, &house::REPORT, &house::UNSAYABLE];
    let refused = read_text(house::UNSAYABLE.text().as_bytes(), &house::UNSAYABLE.actions());
    assert_eq!(refused, Err(Refusal { number: 32, spot: 5 }));
    let folder = concat!(env!("CARGO_MANIFEST_DIR"), "/../examples/house");
    let files = std::fs::read_dir(folder).unwrap().map(|file| file.unwrap().file_name().into_string().unwrap());
    let rules: BTreeSet<String> = files.filter(|name| name.ends_with(".rule")).collect();
    let named = house::RULES.iter().chain(others).map(|house| house.name).chain([JOINED]);
    assert_eq!(rules, named.map(|name| format!("{name}.rule")).collect());
    // The enforced rules in one file: the action list of each, then their texts in the same order, parted by lines `---`.
    let joined = std::fs::read_to_string(format!("{folder}/{JOINED}.rule")).unwrap();
    let (actions, texts) = joined.split_once('\n').unwrap();
    let enforced = &house::RULES[..7];
    assert_eq!(texts.split("---\n").collect::<Vec<_>>(), enforced.iter().map(House::text).collect::<Vec<_>>());
    assert!(enforced.iter().all(|house| house.rule.lines().next() == Some(actions)));
}

/// A drawn policy's words are read as that policy: its nodes in their order, none shared, of the right types.
#[test]
fn drawn_rules_are_read_as_they_are() {
    let mut random = Random(5);
    let mut kinds = [0; 24];
    for _ in 0..20_000 {
        let nodes = 2 + random.below(68);
        let (first, policy) = rule(&mut random, nodes);
        let text = format!("{first} {}", policy.words().join(" "));
        let read = read_text(text.as_bytes(), &ROASTERY);
        assert_eq!(policy.count(), nodes);
        if text.len() > 1024 {
            assert_eq!(read, Err(Refusal { number: 31, spot: 0 }), "{text}");
            continue;
        }
        if nodes > 64 {
            assert_eq!(read, Err(Refusal { number: 33, spot: 0 }), "{text}");
            continue;
        }
        let sheet = read.expect(&text);
        assert_eq!(sheet, policy.unshared_sheet(&ROASTERY), "{text}");
        sheet.nodes.iter().for_each(|node| kinds[node.kind as usize] += 1);
        let mut used: Vec<u8> = sheet.nodes.iter().flat_map(|node| used(node.kind, &node.parts)).collect();
        used.sort();
        assert_eq!(used, (0..nodes as u8 - 1).collect::<Vec<u8>>(), "each is a part once: {text}");
        // Such a sheet meets neither 6 nor 7.
        let types = sheet.types().expect(&text);
        assert_eq!(matches!(types[nodes - 1], Type::Watched(_)), first == "watch", "{text}");
    }
    assert!((1..=6).chain(10..=23).all(|kind| kinds[kind] > 500), "{kinds:?}");
}

/// The parts that a kind uses.
fn used(kind: u8, parts: &[u8; 3]) -> impl Iterator<Item = u8> + '_ {
    let count = match kind {
        1..=3 | 12 => 0,
        4 | 10 | 11 | 13 | 16 | 17 => 1,
        22 => 3,
        _ => 2,
    };
    parts[..count].iter().copied()
}

/// The language, as it is stated: each line a sign and what it stands for, parted by commas. Signs are capitals.
const LANGUAGE: &str = "\
S: watch W, enforce E
W: now A, count K, not E, and W W, or W W, eventually W, before W W, after W W, ignoring A W
E: holds A, not W, and E E, or E E, always E, before W E, after W E, fulfilling K W E E, ignoring A E
A: true, false, p0 to p15, not A, and A A, or A A
K: 1 to 60";

/// Signs and words.
type Signs = Vec<&'static str>;

/// The language as rules of a grammar. What is open behind some words is what each derivation of them leaves to be
/// written, the next sign last. Knows nothing of how a reader goes about it.
struct Language {
    rules: HashMap<&'static str, Vec<Signs>>,
}

impl Language {
    fn new() -> Language {
        let mut rules: HashMap<&str, Vec<Signs>> = HashMap::new();
        for line in LANGUAGE.lines() {
            let (sign, choices) = line.split_once(": ").unwrap();
            let of_sign = rules.entry(sign).or_default();
            for choice in choices.split(", ") {
                let Some((from, to)) = choice.split_once(" to ") else {
                    of_sign.push(choice.split(' ').collect());
                    continue;
                };
                let (letter, from) = from.split_at(from.find(|c: char| c.is_ascii_digit()).unwrap());
                let to = to.strip_prefix(letter).unwrap();
                for number in from.parse::<u8>().unwrap()..=to.parse().unwrap() {
                    of_sign.push(vec![format!("{letter}{number}").leak()]);
                }
            }
        }
        Language { rules }
    }

    /// What is open before the first word.
    fn start(&self) -> Vec<Signs> {
        vec![vec!["S"]]
    }

    /// What is open behind one word more, over all derivations.
    fn behind(&self, open: &[Signs], word: &[u8]) -> Vec<Signs> {
        let may_begin = |sign: &str| self.rules.contains_key(sign) || sign.as_bytes() == word;
        let mut left: Vec<Signs> = open.to_vec();
        let mut behind = Vec::new();
        while let Some(mut signs) = left.pop() {
            let Some(next) = signs.pop() else { continue };
            match self.rules.get(next) {
                Some(choices) => left.extend(choices.iter().filter(|choice| may_begin(choice[0])).map(|choice| {
                    let mut longer = signs.clone();
                    longer.extend(choice.iter().rev());
                    longer
                })),
                None if next.as_bytes() == word => behind.push(signs),
                None => (),
            }
        }
        behind
    }

    /// How many of the words some continuation completes, and what is open behind them.
    fn longest(&self, words: &[Vec<u8>]) -> (usize, Vec<Signs>) {
        let mut open = self.start();
        for (place, word) in words.iter().enumerate() {
            let next = self.behind(&open, word);
            if next.is_empty() {
                return (place, open);
            }
            open = next;
        }
        (words.len(), open)
    }
}

/// Words that complete what is open: a short derivation of each sign.
fn completion(open: &Signs) -> Vec<&'static str> {
    let short = |sign: &&'static str| match *sign {
        "S" => vec!["watch", "count", "1"],
        "W" => vec!["now", "true"],
        "E" => vec!["holds", "true"],
        "A" => vec!["p15"],
        "K" => vec!["60"],
        word => panic!("a word is open: {word}"),
    };
    open.iter().rev().flat_map(short).collect()
}

/// The words of a text, byte by byte.
fn words_of(text: &[u8]) -> Vec<Vec<u8>> {
    let (mut words, mut word) = (Vec::new(), Vec::new());
    for &byte in text.iter().chain(b"\n") {
        match byte {
            32 | 10 if word.is_empty() => (),
            32 | 10 => words.push(std::mem::take(&mut word)),
            _ => word.push(byte),
        }
    }
    words
}

/// What a text without 14 and 2 is answered, from the language alone: the number and the spot.
fn expected(language: &Language, text: &[u8]) -> (u8, u16) {
    if text.len() > 1024 {
        return (31, 0);
    }
    let words = words_of(text);
    let (longest, open) = language.longest(&words);
    assert_eq!(open.len(), 1, "one reading");
    if longest < words.len() || !open[0].is_empty() {
        return (32, longest as u16);
    }
    // Every word is a node but the first and the numbers.
    let numbers = words.iter().filter(|word| word.iter().all(u8::is_ascii_digit)).count();
    if words.len() - 1 - numbers > 64 {
        (33, 0)
    } else {
        (0, 0)
    }
}

fn answered(text: &[u8]) -> (u8, u16) {
    read_text(text, &ROASTERY).map_or_else(|refusal| (refusal.number, refusal.spot), |_| (0, 0))
}

/// Drawn and damaged texts: accepted are those of the language, and the spot is the longest prefix that can be completed.
#[test]
fn answers_are_those_of_the_language() {
    let (language, mut random) = (Language::new(), Random(6));
    let mut seen: BTreeMap<(&str, u8), usize> = BTreeMap::new();
    for _ in 0..40_000 {
        let (sort, text) = any_text(&mut random);
        let answer = answered(&text);
        assert_eq!(answer, expected(&language, &text), "{}", text.escape_ascii());
        *seen.entry((sort, answer.0)).or_default() += 1;
        if answer.0 != 32 {
            continue;
        }
        // The words before the spot, completed: in the language. With the next word no completion is.
        let words = words_of(&text);
        let (longest, open) = language.longest(&words);
        let before = words[..longest].iter().map(|word| String::from_utf8(word.clone()).unwrap());
        let whole: Vec<String> = before.chain(completion(&open[0]).into_iter().map(String::from)).collect();
        let completed = answered(whole.join(" ").as_bytes());
        assert!(matches!(completed.0, 0 | 31 | 33), "{whole:?}");
    }
    for number in [0, 31, 32, 33] {
        let all: usize = seen.iter().filter(|((_, answer), _)| *answer == number).map(|(_, count)| count).sum();
        assert!(all > 500, "{number}: {seen:?}");
    }
}

/// All texts of up to four words over most words of the language and some others.
#[test]
fn all_short_texts() {
    let language = Language::new();
    let words =
        "watch enforce now holds count not and or eventually always before after fulfilling ignoring true p0 p16 7 07";
    let words: Vec<&str> = words.split(' ').collect();
    let mut texts = vec![(String::new(), language.start())];
    for _ in 0..=4 {
        let mut longer = Vec::new();
        for (text, open) in &texts {
            // All that is open is short here, so what is expected follows from it.
            let count = words_of(text.as_bytes()).len() as u16;
            let whole = open.iter().any(Signs::is_empty);
            assert_eq!(answered(text.as_bytes()), if whole { (0, 0) } else { (32, count) }, "{text}");
            for word in &words {
                let behind = language.behind(open, word.as_bytes());
                let text = format!("{text} {word}");
                if behind.is_empty() {
                    assert_eq!(answered(text.as_bytes()), (32, count), "{text}");
                    assert_eq!(answered(format!("{text} watch now p0").as_bytes()), (32, count), "{text}");
                } else {
                    longer.push((text, behind));
                }
            }
        }
        texts = longer;
    }
    assert!(texts.len() > 5_000);
}

/// A whole rule ends too soon wherever it is cut between words, and no word more fits behind it.
#[test]
fn every_prefix_ends_too_soon() {
    let mut random = Random(7);
    for _ in 0..2_000 {
        let nodes = 2 + random.below(30);
        let (first, policy) = rule(&mut random, nodes);
        let words: Vec<String> = [vec![first.to_string()], policy.words()].concat();
        for count in 0..words.len() {
            let text = words[..count].join(" ");
            assert_eq!(answered(text.as_bytes()), (32, count as u16), "{text}");
        }
        let more = random.pick(&["true", "p0", "1", "watch", "not", "and", "x", "\t"]);
        let text = format!("{} {more}", words.join(" "));
        assert_eq!(answered(text.as_bytes()), (32, words.len() as u16), "{text}");
    }
}

/// Every length of text is answered, and 1,025 bytes and more by 31.
#[test]
fn every_length() {
    for length in 0..=3000 {
        for byte in [b' ', b'\n', b'a', b'p', b'1', 0, 255] {
            let number = if length > 1024 { 31 } else { 32 };
            assert_eq!(answered(&vec![byte; length]), (number, 0), "{length} times {byte}");
        }
        let text = format!("watch now p0{}", " ".repeat(length));
        assert_eq!(answered(text.as_bytes()), (if length > 1012 { 31 } else { 0 }, 0));
    }
    assert_eq!(answered(&vec![b' '; 1 << 20]), (31, 0));
}

/// Drawn action lists: 2 is those of no action and of 17.
#[test]
fn action_lists() {
    let mut random = Random(8);
    for _ in 0..2_000 {
        let actions = any_actions(&mut random);
        let ([number, _, count, _], out) = called(b"watch count 1", &actions, 362);
        let inside = (1..=16).contains(&actions.len());
        assert_eq!((number, count as usize), if inside { (0, actions.len()) } else { (2, 0) });
        if inside {
            assert_eq!(Sheet::read(&out[..15 + 2 * actions.len()]).unwrap().actions, actions);
        }
    }
}
