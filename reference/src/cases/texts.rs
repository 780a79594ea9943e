//! Texts with the reader's answer stated beside each.

use super::{house, stated_of, Stated};
use crate::trees::{ROASTERY, TWO};

/// A text, what is lent beside it, and what is stated of it.
pub struct TextCase {
    pub name: String,
    /// The output's length.
    pub output: usize,
    pub actions: Vec<u16>,
    pub text: Vec<u8>,
    pub stated: Reading,
}

/// What is stated of a text.
#[derive(Clone, Debug, PartialEq, Eq)]
pub enum Reading {
    /// The nodes of its sheet: kind, argument, parts.
    Nodes(Vec<[u8; 5]>),
    /// How many nodes its sheet has.
    Count(usize),
    /// What compiling its sheet gives.
    Compiles(Stated),
    /// That its sheet compiles to the table of this sheet.
    As(&'static [u8]),
    /// Number and spot.
    Refused(u8, u16),
}

use Reading::*;

/// A text over the roastery's actions.
fn case(name: &str, text: &str, stated: Reading) -> TextCase {
    bytes(name, text.as_bytes(), stated)
}

fn bytes(name: &str, text: &[u8], stated: Reading) -> TextCase {
    TextCase { name: name.into(), output: 362, actions: ROASTERY.to_vec(), text: text.to_vec(), stated }
}

/// A text named by itself.
fn nodes(text: &str, nodes: &[[u8; 5]]) -> TextCase {
    case(text, text, Nodes(nodes.to_vec()))
}

fn refused(text: &str, spot: u16) -> TextCase {
    case(text, text, Refused(32, spot))
}

/// All of them.
pub fn all() -> Vec<TextCase> {
    let lists =
        [roastery(), waits(), house_rules(), kinds(), sides(), blanks(), other_bytes(), numbers(), wrong_words()];
    lists.into_iter().chain([ends(), lengths(), depths(), node_counts(), lent(), order()]).flatten().collect()
}

/// A text whose sheet compiles as it is stated for a case over the roastery's actions.
fn like(name: &str, text: &str) -> TextCase {
    case(name, text, Compiles(stated_of(name).expect("a case of the small roastery")))
}

/// Those of "A small roastery" that are texts, or nearly.
pub fn roastery() -> Vec<TextCase> {
    let over = |case: TextCase, actions: &[u16]| TextCase { actions: actions.to_vec(), ..case };
    let counts = |one, two| format!("watch or ignoring p0 count {one} ignoring p1 count {two}");
    let two_counts = |one, two, number| {
        let text = counts(one, two);
        over(case(&format!("Or of Counts {one} and {two}"), &text, Compiles(Stated::Refused(number, 6))), &TWO)
    };
    let tray_first = "enforce before eventually now p2 always holds not p0";
    vec![
        like("Always Holds not charge", "enforce always holds not p0"),
        like("Eventually Now drop", "watch eventually now p1"),
        like("Holds drop", "enforce holds p1"),
        like("Not Now not drop", "enforce not now not p1"),
        like("Now false", "watch now false"),
        like("Now true", "watch now true"),
        like("Count 2", "watch count 2"),
        like("Before+ tray, no charge", tray_first),
        over(like("Before+ with charge and tray in one", tray_first), &super::WITH_BOTH),
        like("After+ drop, no charge", "enforce after eventually now p1 always holds not p0"),
        like("Fulfilling 1 log", "enforce fulfilling 1 now p3 holds true always holds not p1"),
        like("Ignoring log Holds drop", "enforce ignoring p3 holds p1"),
        case("Eventually Holds drop", "watch eventually holds p1", Refused(32, 2)),
        like("Fulfilling 2 log", "enforce fulfilling 2 now p3 holds true always holds not p1"),
        like("Count 60", "watch count 60"),
        case("Count 61", "watch count 61", Refused(32, 2)),
        like("After- Count 60 Count 4", "watch after count 60 count 4"),
        like("After- Count 60 Count 5", "watch after count 60 count 5"),
        two_counts(32, 32, 9),
        two_counts(33, 32, 8),
        two_counts(32, 33, 8),
        like(
            "Whenever charge: Before+ drop",
            "enforce always after eventually now p0 before eventually now p1 always holds not p0",
        ),
    ]
}

/// Fulfilling whose number is not the bound of its W.
fn waits() -> Vec<TextCase> {
    use Stated::{Rows, Table};
    let compiles = |name: &str, text: &str, stated| case(name, &format!("enforce {text}"), Compiles(stated));
    vec![
        like("Fulfilling 3 eventually log", "enforce fulfilling 3 eventually now p3 holds true always holds not p1"),
        like("Fulfilling 1 eventually log", "enforce fulfilling 1 eventually now p3 holds true always holds not p1"),
        like("Fulfilling 60 eventually log", "enforce fulfilling 60 eventually now p3 holds true always holds not p1"),
        like("Fulfilling 60 of nothing", "enforce fulfilling 60 now false holds true always holds not p1"),
        like("Fulfilling 3 log", "enforce fulfilling 3 now p3 holds true always holds not p1"),
        like("Fulfilling 2 Count 3", "enforce fulfilling 2 count 3 always holds not p0 always holds not p1"),
        like(
            "Fulfilling 2 log behind a tray",
            "enforce fulfilling 2 after eventually now p2 eventually now p3 always holds not p0 always holds not p1",
        ),
        like(
            "Fulfilling 2 Ignoring tray log",
            "enforce fulfilling 2 ignoring p2 now p3 holds true always holds not p1",
        ),
        like(
            "Fulfilling 2 log, else Fulfilling 1 tray",
            "enforce fulfilling 2 eventually now p3 holds true \
             fulfilling 1 eventually now p2 holds true always holds not p1",
        ),
        like(
            "Whenever charge: Fulfilling 2 log",
            "enforce always after now p0 fulfilling 2 eventually now p3 holds true always holds not p1",
        ),
        like("Not Fulfilling 2 log", "watch not fulfilling 2 eventually now p3 holds true always holds not p1"),
        // Whether a is fulfilled or not, everything is permitted.
        compiles("fulfilling 2 now, nothing denied", "fulfilling 2 now p3 holds true holds true", Table("enf|0 0 0 0")),
        compiles("fulfilling 1 count 60", "fulfilling 1 count 60 not count 1 holds true", Table("enf|0 0 0 0")),
        // The first action fulfils a; the second is a charge.
        compiles("fulfilling 60 count 1", "fulfilling 60 count 1 holds p0 not count 1", {
            Table("enf|1 1 1 1|2 - - -|2 2 2 2")
        }),
        // 60 rows of waiting, and 4 or 5 behind them.
        compiles("fulfilling 60, 64 rows", "fulfilling 60 now false not count 5 not count 4", Rows("enf", 64)),
        compiles("fulfilling 60, 65 rows", "fulfilling 60 now false not count 4 not count 5", Stated::Refused(9, 6)),
        // The inner one is violated by a ninth action: too late for a. The fifth is denied.
        compiles(
            "fulfilling 5 in fulfilling 2",
            "fulfilling 2 not fulfilling 5 now p3 holds true not count 4 holds true not count 3",
            Rows("enf", 5),
        ),
    ]
}

/// The house rules.
pub fn house_rules() -> Vec<TextCase> {
    let rule = |house: &house::House| {
        let name = format!("house: {}", house.name);
        TextCase { actions: house.actions(), ..case(&name, house.text(), As(house.sheet)) }
    };
    house::RULES.iter().chain([&house::WITHIN]).map(rule).collect()
}

/// Each word of the language, in each mode that has it.
fn kinds() -> Vec<TextCase> {
    let (p0, now) = ([3, 0, 0, 0, 0], [10, 0, 0, 0, 0]);
    let (count, holds) = ([12, 1, 0, 0, 0], [11, 0, 0, 0, 0]);
    vec![
        nodes("watch now p0", &[p0, now]),
        nodes("watch now true", &[[1, 0, 0, 0, 0], now]),
        nodes("watch now false", &[[2, 0, 0, 0, 0], now]),
        nodes("watch now p9", &[[3, 9, 0, 0, 0], now]),
        nodes("watch now p10", &[[3, 10, 0, 0, 0], now]),
        nodes("watch now p15", &[[3, 15, 0, 0, 0], now]),
        nodes("watch now not p0", &[p0, [4, 0, 0, 0, 0], [10, 0, 1, 0, 0]]),
        nodes("watch now and p0 p1", &[p0, [3, 1, 0, 0, 0], [5, 0, 0, 1, 0], [10, 0, 2, 0, 0]]),
        nodes("watch now or p1 p0", &[[3, 1, 0, 0, 0], p0, [6, 0, 0, 1, 0], [10, 0, 2, 0, 0]]),
        nodes("watch count 1", &[count]),
        nodes("watch count 60", &[[12, 60, 0, 0, 0]]),
        nodes("watch not holds p0", &[p0, holds, [13, 0, 1, 0, 0]]),
        nodes("watch and count 1 count 2", &[count, [12, 2, 0, 0, 0], [14, 0, 0, 1, 0]]),
        nodes("watch or count 2 count 1", &[[12, 2, 0, 0, 0], count, [15, 0, 0, 1, 0]]),
        nodes("watch eventually count 1", &[count, [16, 0, 0, 0, 0]]),
        nodes("watch before count 1 now p0", &[count, p0, [10, 0, 1, 0, 0], [18, 0, 0, 2, 0]]),
        nodes("watch after now p0 count 1", &[p0, now, count, [20, 0, 1, 2, 0]]),
        nodes("watch ignoring p0 count 1", &[p0, count, [23, 0, 0, 1, 0]]),
        nodes("enforce holds p0", &[p0, holds]),
        nodes("enforce not count 1", &[count, [13, 0, 0, 0, 0]]),
        nodes("enforce and holds p0 not count 1", &[p0, holds, count, [13, 0, 2, 0, 0], [14, 0, 1, 3, 0]]),
        nodes("enforce or not count 1 holds p0", &[count, [13, 0, 0, 0, 0], p0, [11, 0, 2, 0, 0], [15, 0, 1, 3, 0]]),
        nodes("enforce always holds p0", &[p0, holds, [17, 0, 1, 0, 0]]),
        nodes("enforce before count 1 holds p0", &[count, p0, [11, 0, 1, 0, 0], [19, 0, 0, 2, 0]]),
        nodes("enforce after now p0 not count 1", &[p0, now, count, [13, 0, 2, 0, 0], [21, 0, 1, 3, 0]]),
        nodes(
            "enforce fulfilling 60 count 1 holds p0 not count 1",
            &[count, p0, [11, 0, 1, 0, 0], count, [13, 0, 3, 0, 0], [22, 60, 0, 2, 4]],
        ),
        nodes("enforce ignoring p0 holds p0", &[p0, p0, [11, 0, 1, 0, 0], [23, 0, 0, 2, 0]]),
    ]
}

/// Parts of one mode in the other, equal parts, and operators in operators: left before right, none shared.
fn sides() -> Vec<TextCase> {
    let count = |k| [12, k, 0, 0, 0];
    let p = |p| [3, p, 0, 0, 0];
    vec![
        nodes("watch not not count 1", &[count(1), [13, 0, 0, 0, 0], [13, 0, 1, 0, 0]]),
        nodes("enforce not not holds p1", &[p(1), [11, 0, 0, 0, 0], [13, 0, 1, 0, 0], [13, 0, 2, 0, 0]]),
        nodes(
            "watch not before count 1 not count 2",
            &[count(1), count(2), [13, 0, 1, 0, 0], [19, 0, 0, 2, 0], [13, 0, 3, 0, 0]],
        ),
        nodes("enforce not before count 1 count 2", &[count(1), count(2), [18, 0, 0, 1, 0], [13, 0, 2, 0, 0]]),
        nodes(
            "enforce before before count 1 count 2 not after count 3 count 4",
            &[
                count(1),
                count(2),
                [18, 0, 0, 1, 0],
                count(3),
                count(4),
                [20, 0, 3, 4, 0],
                [13, 0, 5, 0, 0],
                [19, 0, 2, 6, 0],
            ],
        ),
        nodes(
            "enforce after after count 1 count 2 not count 3",
            &[count(1), count(2), [20, 0, 0, 1, 0], count(3), [13, 0, 3, 0, 0], [21, 0, 2, 4, 0]],
        ),
        nodes("watch or count 1 count 1", &[count(1), count(1), [15, 0, 0, 1, 0]]),
        nodes(
            "watch and and count 1 count 2 count 3",
            &[count(1), count(2), [14, 0, 0, 1, 0], count(3), [14, 0, 2, 3, 0]],
        ),
        nodes(
            "watch and count 1 and count 2 count 3",
            &[count(1), count(2), count(3), [14, 0, 1, 2, 0], [14, 0, 0, 3, 0]],
        ),
        nodes(
            "watch not and holds not p1 not now or not p2 and p3 true",
            &[
                p(1),
                [4, 0, 0, 0, 0],
                [11, 0, 1, 0, 0],
                p(2),
                [4, 0, 3, 0, 0],
                p(3),
                [1, 0, 0, 0, 0],
                [5, 0, 5, 6, 0],
                [6, 0, 4, 7, 0],
                [10, 0, 8, 0, 0],
                [13, 0, 9, 0, 0],
                [14, 0, 2, 10, 0],
                [13, 0, 11, 0, 0],
            ],
        ),
        nodes(
            "watch ignoring and p0 p1 ignoring not p2 count 3",
            &[p(0), p(1), [5, 0, 0, 1, 0], p(2), [4, 0, 3, 0, 0], count(3), [23, 0, 4, 5, 0], [23, 0, 2, 6, 0]],
        ),
    ]
}

/// Blanks and newlines at both ends and between, and no text at all.
fn blanks() -> Vec<TextCase> {
    let now = || Nodes(vec![[3, 0, 0, 0, 0], [10, 0, 0, 0, 0]]);
    vec![
        case("no byte", "", Refused(32, 0)),
        case("a blank", " ", Refused(32, 0)),
        case("a newline", "\n", Refused(32, 0)),
        case("blanks and newlines alone", " \n  \n\n ", Refused(32, 0)),
        case("1,024 blanks", &" ".repeat(1024), Refused(32, 0)),
        case("a newline behind", "watch now p0\n", now()),
        case("a blank before", " watch now p0", now()),
        case("blanks and newlines at both ends", "\n  \nwatch now p0 \n \n", now()),
        case("newlines between", "watch\nnow\n\np0", now()),
        case("several blanks between", "watch   now  p0", now()),
        case("blanks and newlines between", " watch \n now\n \np0 ", now()),
        case("words run together", "watchnow p0", Refused(32, 0)),
        case("a word parted", "watch n ow p0", Refused(32, 1)),
        case("a number parted", "watch count 1 0", Refused(32, 3)),
    ]
}

/// A word with any byte but lower-case letters and digits fits nothing.
fn other_bytes() -> Vec<TextCase> {
    let of = |name, text: &[u8], spot| bytes(name, text, Refused(32, spot));
    vec![
        of("a tab for a blank", b"watch\tnow p0", 0),
        of("tabs for all blanks", b"watch\tnow\tp0", 0),
        of("a tab before", b"\twatch now p0", 0),
        of("a tab as a word", b"watch \t now p0", 1),
        of("a tab behind", b"watch now p0\t", 2),
        of("a tab behind a blank", b"watch now p0 \t", 3),
        of("a carriage return at the end", b"watch now p0\r\n", 2),
        of("a carriage return between", b"watch\r\nnow p0", 0),
        of("a vertical tab", b"watch now\x0bp0", 1),
        of("a capital first", b"Watch now p0", 0),
        of("capitals", b"WATCH NOW P0", 0),
        of("a capital second", b"watch Now p0", 1),
        of("a capital proposition", b"watch now P0", 2),
        of("a zero byte for a blank", b"watch\0now p0", 0),
        of("a zero byte behind", b"watch now p0\0", 2),
        of("a zero byte behind a blank", b"watch now p0 \0", 3),
        of("zero bytes before", b"\0\0watch now p0", 0),
        of("a zero byte alone", b"\0", 0),
        of("a blank of two bytes", "watch\u{a0}now p0".as_bytes(), 0),
        of("a byte 160", b"watch\xa0now p0", 0),
        of("a byte 255", b"watch now p0\xff", 2),
        of("bytes with the high bit", b"watch \xee\xef\xf7 p0", 1),
        of("a letter beyond ASCII", "watch n\u{f6}w p0".as_bytes(), 1),
        of("a full stop", b"watch now p0.", 2),
        of("a comma", b"watch, now p0", 0),
        of("parentheses", b"watch (now p0)", 1),
        of("a sign", b"watch count +1", 2),
        of("a minus", b"watch count -1", 2),
    ]
}

/// Numbers of counts and propositions.
fn numbers() -> Vec<TextCase> {
    let counts = ["0", "00", "01", "060", "61", "70", "99", "100", "256", "257", "316", "65537", "4294967297", "1a"];
    let counts = counts.map(|number| refused(&format!("watch count {number}"), 2));
    let fulfilling = ["0", "00", "01", "61", "257"];
    let fulfilling = fulfilling.map(|number| refused(&format!("enforce fulfilling {number} count 1"), 2));
    let propositions = [
        "p16", "p00", "p01", "p015", "p99", "p20", "p100", "p256", "p272", "p65536", "p", "pp0", "0", "p0p1", "p1p",
        "q0",
    ];
    let propositions = propositions.map(|name| refused(&format!("watch now {name}"), 2));
    let mut all: Vec<TextCase> = counts.into_iter().chain(fulfilling).chain(propositions).collect();
    all.push(refused("watch count", 2));
    all.push(refused("watch count count 1", 2));
    all.push(refused("watch count p1", 2));
    all.push(refused("enforce fulfilling count 1 holds true holds true", 2));
    all.push(refused("watch count 18446744073709551617", 2));
    all
}

/// Words of the language where they do not fit, words that are none, and words behind a whole rule.
fn wrong_words() -> Vec<TextCase> {
    vec![
        refused("now p0", 0),
        refused("p0", 0),
        refused("1", 0),
        refused("enforced holds p0", 0),
        refused("watch watch now p0", 1),
        refused("watch enforce holds p0", 1),
        refused("enforce now p0", 1),
        refused("enforce count 1", 1),
        refused("enforce eventually now p0", 1),
        refused("watch holds p0", 1),
        refused("watch always holds p0", 1),
        refused("watch fulfilling 1 count 1 holds true holds true", 1),
        refused("watch p0", 1),
        refused("watch true", 1),
        refused("watch 1", 1),
        refused("watch whenever now p0 count 1", 1),
        refused("watch not now p0", 2),
        refused("enforce not holds p0", 2),
        refused("enforce always now p0", 2),
        refused("watch and now p0 holds p0", 4),
        refused("watch and holds p0 now p0", 2),
        refused("enforce or holds p0 now p0", 4),
        refused("enforce before holds p0 holds p0", 2),
        refused("enforce before now p0 now p0", 4),
        refused("watch before now p0 holds p0", 4),
        refused("watch after holds p0 now p0", 2),
        refused("enforce after now p0 now p0", 4),
        refused("watch after now p0 holds p0", 4),
        refused("enforce fulfilling 1 holds p0 holds p0 holds p0", 3),
        refused("enforce fulfilling 1 now p0 now p0 holds p0", 5),
        refused("enforce fulfilling 1 now p0 holds p0 now p0", 7),
        refused("watch ignoring now p0 now p0", 2),
        refused("watch ignoring p0 p0", 3),
        refused("watch ignoring p0 holds p0", 3),
        refused("enforce ignoring p0 now p0", 3),
        refused("watch now now p0", 2),
        refused("watch now eventually p0", 2),
        refused("watch now not count 1", 3),
        refused("watch now and p0 count 1", 4),
        refused("watch now or p0 holds p0", 4),
        refused("watch now p0 p0", 3),
        refused("watch now p0 watch", 3),
        refused("watch now p0 watch now p0", 3),
        refused("watch count 1 1", 3),
        refused("enforce holds true x", 3),
        refused("watch nows p0", 1),
        refused("watch no p0", 1),
        refused("watch now tru", 2),
        refused("watch now truee", 2),
        refused("watc now p0", 0),
    ]
}

/// A rule that ends too soon at each place, then whole, then with a word more.
fn ends() -> Vec<TextCase> {
    let long = "enforce fulfilling 2 or now p3 after count 1 now p3 always holds not p0 ignoring and p2 p1 holds true";
    let words: Vec<&str> = long.split(' ').collect();
    let cut =
        |words: &[&str]| case(&format!("{} words", words.len()), &words.join(" "), Refused(32, words.len() as u16));
    let mut all: Vec<TextCase> = (1..words.len()).map(|count| cut(&words[..count])).collect();
    all.push(case("21 words, whole", long, Count(18)));
    all.push(case("a word more", &format!("{long} true"), Refused(32, 21)));
    all.push(case("a blank and a newline more", &format!("{long} \n"), Count(18)));
    all
}

/// Texts of 1,024 bytes, and longer ones.
fn lengths() -> Vec<TextCase> {
    let now = "watch now p0";
    let pad = |length: usize, byte: &str| byte.repeat(length - now.len());
    vec![
        case("a word of 1,024 letters", &"a".repeat(1024), Refused(32, 0)),
        case("a word of 1,025 letters", &"a".repeat(1025), Refused(31, 0)),
        case("1,024 bytes, blanks behind", &format!("{now}{}", pad(1024, " ")), Count(2)),
        case("1,025 bytes, blanks behind", &format!("{now}{}", pad(1025, " ")), Refused(31, 0)),
        case("1,024 bytes, newlines before", &format!("{}{now}", pad(1024, "\n")), Count(2)),
        case("1,025 bytes, newlines before", &format!("{}{now}", pad(1025, "\n")), Refused(31, 0)),
        case("1,024 bytes, blanks between", &format!("watch{} now p0", pad(1024, " ")), Count(2)),
        case("1,024 bytes, a long number", &format!("watch count {}1", "0".repeat(1011)), Refused(32, 2)),
        case("1,024 bytes, a long last word", &format!("{now} {}", "p".repeat(1011)), Refused(32, 3)),
        case("1,024 bytes, a long proposition", &format!("{now}{}", pad(1024, "0")), Refused(32, 2)),
        case("512 words", &"a ".repeat(512), Refused(32, 0)),
        case("1,024 zero bytes", &"\0".repeat(1024), Refused(32, 0)),
        case("1,025 blanks", &" ".repeat(1025), Refused(31, 0)),
        case("3,000 bytes", &format!("{now}{}", pad(3000, " ")), Refused(31, 0)),
        bytes("2,048 bytes 255", &[255; 2048], Refused(31, 0)),
    ]
}

/// Words nested as deep as the text can hold.
fn depths() -> Vec<TextCase> {
    let of = |name: &str, first: &str, again: &str, times: usize, end: &str, stated| {
        case(name, &format!("{first} {}{end}", format!("{again} ").repeat(times)), stated)
    };
    vec![
        of("enforce and 338 times or", "enforce", "or", 338, "", Refused(32, 339)),
        of("enforce and 339 times or, 1,024 bytes", "enforce", "or", 338, "or", Refused(32, 340)),
        of("watch and 339 times or", "watch", "or", 338, "or", Refused(32, 340)),
        of("338 times or, then a wrong word", "watch", "or", 338, "p0", Refused(32, 339)),
        of("300 times or in a formula", "watch now", "or", 300, "p0", Refused(32, 303)),
        of("252 times not", "watch", "not", 252, "count 1", Refused(33, 0)),
        of("251 times not", "enforce", "not", 251, "count 1", Refused(33, 0)),
        of("251 times not, in the wrong mode", "watch", "not", 251, "count 1", Refused(32, 252)),
        of("253 times not in a formula", "watch now", "not", 253, "p0", Refused(33, 0)),
        of("48 times fulfilling 1 count 1", "enforce", "fulfilling 1 count 1", 48, "", Refused(32, 193)),
        of("72 times after count 1", "watch", "after count 1", 72, "count 1", Refused(33, 0)),
    ]
}

/// 64 nodes and 65.
fn node_counts() -> Vec<TextCase> {
    let deep = |times: usize, end: &str| format!("watch {}now {end}", "eventually ".repeat(times));
    let flat = |times: usize, end: &str| format!("enforce not {}{end}", "or count 1 ".repeat(times));
    let wide = |times: usize| format!("watch {}{}", "and ".repeat(times), "count 2 ".repeat(times + 1));
    let formula = |end: &str| format!("enforce holds {}{end}", "and not p0 ".repeat(20));
    vec![
        case("64 nodes, Eventually", &deep(62, "p1"), Count(64)),
        case("65 nodes, Eventually", &deep(63, "p1"), Refused(33, 0)),
        case("65 nodes, the last wrong", &deep(63, "p16"), Refused(32, 65)),
        case("65 nodes, the last missing", &deep(63, ""), Refused(32, 65)),
        case("65 nodes, a word more", &deep(63, "p1 p1"), Refused(32, 66)),
        case("64 nodes, Or to the right", &flat(31, "count 1"), Count(64)),
        case("65 nodes, Or to the right", &flat(31, "eventually count 1"), Refused(33, 0)),
        case("63 nodes, And to the left", &wide(31), Count(63)),
        case("65 nodes, And to the left", &wide(32), Refused(33, 0)),
        case("64 nodes, a formula", &formula("not not p1"), Count(64)),
        case("65 nodes, a formula", &formula("or p1 not p1"), Refused(33, 0)),
        case("64 nodes of a formula, and no more", &formula("and p1 not"), Refused(32, 65)),
    ]
}

/// Action lists of 0 to 17, and outputs of 361 bytes and more.
fn lent() -> Vec<TextCase> {
    let with = |name: &str, output, actions: usize, stated| TextCase {
        output,
        actions: (0..actions).map(|action| 1 << (action % 16)).collect(),
        ..case(name, "watch now p0", stated)
    };
    vec![
        with("no action", 362, 0, Refused(2, 0)),
        with("one action", 362, 1, Count(2)),
        with("16 actions", 362, 16, Count(2)),
        with("17 actions", 362, 17, Refused(2, 0)),
        with("an output of 361 bytes", 361, 4, Refused(14, 0)),
        with("an output of 363 bytes", 363, 4, Count(2)),
        with("an output of 400 bytes", 400, 4, Count(2)),
    ]
}

/// 14 before 2, 2 before 31, 31 before 32, 32 before 33.
fn order() -> Vec<TextCase> {
    let with = |name: &str, output, actions: usize, text: &str, number, spot| TextCase {
        output,
        actions: vec![1; actions],
        ..case(name, text, Refused(number, spot))
    };
    let long = format!("{}watch", "watch ".repeat(170));
    let many = format!("watch {}now ", "eventually ".repeat(63));
    vec![
        with("14 before 2", 361, 0, "watch now p0", 14, 0),
        with("14 before 2, 17 actions", 361, 17, "watch now p0", 14, 0),
        with("14 before 31", 361, 4, &long, 14, 0),
        with("14 before 32", 361, 4, "now", 14, 0),
        with("14 before 33", 361, 4, &format!("{many}p0"), 14, 0),
        with("14 before all others", 361, 17, &long, 14, 0),
        with("2 before 31", 362, 0, &long, 2, 0),
        with("2 before 31, 17 actions", 362, 17, &long, 2, 0),
        with("2 before 32", 362, 17, "now", 2, 0),
        with("2 before 33", 362, 17, &format!("{many}p0"), 2, 0),
        with("31 before 32", 362, 4, &long, 31, 0),
        with("31 before 33", 362, 4, &format!("{many}p0{}", " ".repeat(320)), 31, 0),
        with("32 before 33", 362, 4, &format!("{many}P0"), 32, 65),
    ]
}
