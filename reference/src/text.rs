//! Rules typed as text, read by recursive descent: each word is looked up by what is wanted where it stands.

use crate::sheet::Sheet;
use crate::trees::Tree;
use crate::{at, Refusal};

/// The longest text, in bytes.
pub const LONGEST: usize = 1024;
/// The output that a reader is lent, in bytes: the longest sheet that it writes.
pub const OUTPUT: usize = 362;
const MOST_ACTIONS: usize = 16;
const MOST_NODES: usize = 64;

/// What is wanted where a word stands: a formula A, a watched policy W or an enforced one E.
#[derive(Clone, Copy, Debug, PartialEq, Eq)]
pub enum Wanted {
    A,
    W,
    E,
}

use Wanted::*;

/// The sheet of a text's one reading: refusals 2, 31, 32, 33. (14 is a matter of the lent areas: see `calls`.)
pub fn read_text(text: &[u8], actions: &[u16]) -> Result<Sheet, Refusal> {
    if !(1..=MOST_ACTIONS).contains(&actions.len()) {
        return Err(at(2, 0));
    }
    if text.len() > LONGEST {
        return Err(at(31, 0));
    }
    let mut reader = Reader { words: words(text), fitted: 0 };
    let tree = reader.rule().ok_or(at(32, reader.fitted))?;
    if tree.count() > MOST_NODES {
        return Err(at(33, 0));
    }
    Ok(tree.unshared_sheet(actions))
}

/// The runs of bytes other than blank and newline.
fn words(text: &[u8]) -> Vec<&[u8]> {
    text.split(|&byte| byte == b' ' || byte == b'\n').filter(|word| !word.is_empty()).collect()
}

struct Reader<'a> {
    words: Vec<&'a [u8]>,
    /// How many of them fit.
    fitted: usize,
}

impl Reader<'_> {
    /// The whole text; none where a word does not fit or is missing.
    fn rule(&mut self) -> Option<Tree> {
        let wanted = self.word(mode)?;
        self.part(wanted).filter(|_| self.fitted == self.words.len())
    }

    /// What the next word is, where it fits.
    fn word<T>(&mut self, meaning: impl Fn(&str) -> Option<T>) -> Option<T> {
        let word = self.words.get(self.fitted)?;
        let meant = meaning(std::str::from_utf8(word).ok()?)?;
        self.fitted += 1;
        Some(meant)
    }

    /// A formula or a policy, and the words of its parts.
    fn part(&mut self, wanted: Wanted) -> Option<Tree> {
        let (kind, named, parts) = self.word(|word| node(wanted, word))?;
        let argument = if kind == 12 || kind == 22 { self.word(count)? } else { named };
        let parts: Option<Vec<Tree>> = parts.iter().map(|&wanted| self.part(wanted)).collect();
        Some(Tree::new(kind, argument, parts?))
    }
}

/// The first word.
fn mode(word: &str) -> Option<Wanted> {
    match word {
        "watch" => Some(W),
        "enforce" => Some(E),
        _ => None,
    }
}

/// The kind of a word, the argument that it names itself, and the parts that follow it.
fn node(wanted: Wanted, word: &str) -> Option<(u8, u8, &'static [Wanted])> {
    let (kind, parts): (u8, &[Wanted]) = match (wanted, word) {
        (A, "true") => (1, &[]),
        (A, "false") => (2, &[]),
        (A, "not") => (4, &[A]),
        (A, "and") => (5, &[A, A]),
        (A, "or") => (6, &[A, A]),
        (A, _) => return number(word.strip_prefix('p')?, 0..=15).map(|proposition| (3, proposition, &[][..])),
        (W, "now") => (10, &[A]),
        (E, "holds") => (11, &[A]),
        (W, "count") => (12, &[]),
        (W, "not") => (13, &[E]),
        (E, "not") => (13, &[W]),
        (W, "and") => (14, &[W, W]),
        (E, "and") => (14, &[E, E]),
        (W, "or") => (15, &[W, W]),
        (E, "or") => (15, &[E, E]),
        (W, "eventually") => (16, &[W]),
        (E, "always") => (17, &[E]),
        (W, "before") => (18, &[W, W]),
        (E, "before") => (19, &[W, E]),
        (W, "after") => (20, &[W, W]),
        (E, "after") => (21, &[W, E]),
        (E, "fulfilling") => (22, &[W, E, E]),
        (W, "ignoring") => (23, &[A, W]),
        (E, "ignoring") => (23, &[A, E]),
        _ => return None,
    };
    Some((kind, 0, parts))
}

fn count(word: &str) -> Option<u8> {
    number(word, 1..=60)
}

/// A number of a range, written in the one way.
fn number(word: &str, range: std::ops::RangeInclusive<u8>) -> Option<u8> {
    word.parse().ok().filter(|number: &u8| range.contains(number) && number.to_string() == word)
}
