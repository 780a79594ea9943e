//! Runs random and damaged inputs through the library and the reference side by side; and pairs of sheets beside each
//! other: with spare nodes and without, and the same rule with a Fulfilling or its formulas written otherwise.
//! Arguments: number of calls, seed. Ends with the counts and `0 disagreements`, or status 1.

mod beside;
mod boards;
mod formulas;
mod lent;
#[allow(dead_code)] // the version is not compared
#[path = "../../../examples/rust/src/calls.rs"]
mod library;
mod spare;
mod waits;

use beside::{Beside, Call, Outcome};
use boards::{about, any_board, number};
use reference::board::{AREA, PLACES, RECORD};
use reference::calls::{fields, DENIED, VALUES, WORK};
use reference::generate::{lay_out, Random};
use reference::inputs::formulas::{any_pair, rewritten};
use reference::inputs::joins::any_join;
use reference::inputs::lists::{any_list, formulas_under_and, list_for, long_list, spared_ands, waits_under_and};
use reference::inputs::sheets::any_sheet;
use reference::inputs::spare::{any_spared, Spared};
use reference::inputs::tables::Pool;
use reference::inputs::texts::{any_actions, any_text};
use reference::inputs::waits::{any_rewritten, any_way};
use reference::table::LARGEST;
use reference::text::OUTPUT;
use spare::{Desk, Pair};
use std::collections::{BTreeMap, BTreeSet};

/// So many disagreements are printed; then the run ends.
const ENOUGH: usize = 100;
/// Calls of one history.
const HISTORY: usize = 40;
/// Of so many lists one is long.
const LONG: usize = 500;

struct Fuzz {
    random: Random,
    beside: Beside,
    desk: Desk,
    pool: Pool,
    sorts: BTreeMap<&'static str, usize>,
    /// By call and number of the answer.
    answers: BTreeMap<(&'static str, u16), usize>,
    /// The nodes that explaining named, and the places.
    named: BTreeSet<u16>,
    places: BTreeSet<u64>,
    /// Pairs of a sheet with spare nodes and the same without, by call and number of the answer.
    pairs: BTreeMap<(&'static str, u16), usize>,
    /// Pairs of a Fulfilling and the same written otherwise, likewise; and those of which 8 or 9 refuses one alone.
    waits: BTreeMap<(&'static str, u16), usize>,
    one_over: usize,
    /// Pairs of a sheet and the same with its formulas written otherwise, likewise.
    formulas: BTreeMap<(&'static str, u16), usize>,
    calls: usize,
    disagreements: usize,
}

impl Fuzz {
    fn count(&mut self, sort: &'static str, call: &'static str, outcome: Outcome) {
        self.calls += 1;
        *self.sorts.entry(sort).or_default() += 1;
        match outcome {
            Ok(answer) => *self.answers.entry((call, answer as u16)).or_default() += 1,
            Err(text) => self.disagree(sort, &text),
        }
    }

    fn sheet(&mut self) {
        let (sort, sheet) = any_sheet(&mut self.random);
        self.compile(sort, &sheet);
    }

    fn compile(&mut self, sort: &'static str, sheet: &[u8]) {
        let (lengths, short) = self.lengths();
        let (outcome, out) = self.beside.compile(&mut self.random, sheet, lengths);
        self.keep(&outcome, &out);
        self.count(if short { "sheet, an area too short" } else { sort }, "compile", outcome);
    }

    /// A sheet with spare nodes and the same without: each beside the reference, and both beside each other.
    fn spare_nodes(&mut self) {
        let ands = self.random.chance(40);
        let drawn = if ands { spared_ands(&mut self.random) } else { any_spared(&mut self.random) };
        let Spared { plain, spared, numbers } = drawn;
        let (plain, spared) = (lay_out(&mut self.random, &plain), lay_out(&mut self.random, &spared));
        let pair = Pair { plain: &plain, spared: &spared, numbers: &numbers };
        if ands {
            let list = list_for(&mut self.random, &plain);
            self.explain("list, of a pair with spare nodes", &spared, &list);
            self.explain("list, of a pair without", &plain, &list);
            let outcome = self.desk.explained(&pair, &list);
            self.pair("explain", outcome);
        }
        self.compile("sheet, of a pair with spare nodes", &spared);
        self.compile("sheet, of a pair without", &plain);
        let outcome = self.desk.compiled(&pair);
        self.pair("compile", outcome);
    }

    fn pair(&mut self, call: &'static str, outcome: Result<u16, String>) {
        match outcome {
            Ok(number) => *self.pairs.entry((call, number)).or_default() += 1,
            Err(text) => self.disagree("spare nodes", &text),
        }
    }

    fn disagree(&mut self, sort: &str, text: &str) {
        self.disagreements += 1;
        println!("disagreement {}, call {}, {sort}, {text}", self.disagreements, self.calls);
    }

    /// A sheet with a Fulfilling and the same written otherwise: each beside the reference, and both beside each other.
    fn waits(&mut self) {
        let ands = self.random.chance(30);
        let drawn = if ands {
            let plain = waits_under_and(&mut self.random);
            any_way(&mut self.random, &plain)
        } else {
            Some(any_rewritten(&mut self.random))
        };
        let Some(drawn) = drawn else { return };
        let (plain, other) = (lay_out(&mut self.random, &drawn.plain), lay_out(&mut self.random, &drawn.other));
        let pair = waits::Pair { drawn: &drawn, plain: &plain, other: &other };
        if ands {
            let list = list_for(&mut self.random, &plain);
            self.explain("list, of a pair with Fulfilling", &plain, &list);
            self.explain("list, of a pair, Fulfilling written otherwise", &other, &list);
            let outcome = pair.explained(&mut self.desk, &list);
            self.wait("explain", outcome);
        }
        self.compile("sheet, of a pair with Fulfilling", &plain);
        self.compile("sheet, of a pair, Fulfilling written otherwise", &other);
        let outcome = pair.compiled(&mut self.desk);
        self.wait("compile", outcome);
    }

    fn wait(&mut self, call: &'static str, outcome: Result<Option<u16>, String>) {
        match outcome {
            Ok(Some(number)) => *self.waits.entry((call, number)).or_default() += 1,
            Ok(None) => self.one_over += 1,
            Err(text) => self.disagree("Fulfilling", &text),
        }
    }

    /// A sheet and the same with its formulas written otherwise: each beside the reference, and both beside each other.
    fn formulas(&mut self) {
        let ands = self.random.chance(40);
        let [plain, other] = if ands {
            let plain = formulas_under_and(&mut self.random);
            let other = rewritten(&mut self.random, &plain);
            [plain, other]
        } else {
            any_pair(&mut self.random)
        };
        let (plain, other) = (lay_out(&mut self.random, &plain), lay_out(&mut self.random, &other));
        let pair = formulas::Pair { plain: &plain, other: &other };
        if ands || self.random.chance(20) {
            let list = list_for(&mut self.random, &plain);
            self.explain("list, of a pair of formulas", &plain, &list);
            self.explain("list, of a pair, formulas written otherwise", &other, &list);
            let outcome = pair.explained(&mut self.desk, &list);
            self.formula("explain", outcome);
        }
        self.compile("sheet, of a pair of formulas", &plain);
        self.compile("sheet, of a pair, formulas written otherwise", &other);
        let outcome = pair.compiled(&mut self.desk);
        self.formula("compile", outcome);
    }

    fn formula(&mut self, call: &'static str, outcome: Result<u16, String>) {
        match outcome {
            Ok(number) => *self.formulas.entry((call, number)).or_default() += 1,
            Err(text) => self.disagree("formulas", &text),
        }
    }

    /// Joins tables; what they give goes to the others, so that joined tables are joined and put on boards too.
    fn join(&mut self) {
        let join = any_join(&mut self.random, &self.pool);
        let (lengths, short) = self.lengths();
        let (outcome, out) = self.beside.join(&mut self.random, join.count, &join.tables, lengths);
        self.keep(&outcome, &out);
        self.count(if short { "join, an area too short" } else { join.sort }, "join", outcome);
    }

    /// Explains a list of any sort, seldom a long one.
    fn list(&mut self) {
        let random = &mut self.random;
        let drawn = if random.below(LONG) == 0 { long_list(random) } else { any_list(random) };
        self.explain(drawn.sort, &drawn.sheet, &drawn.list);
    }

    fn explain(&mut self, sort: &'static str, sheet: &[u8], list: &[u8]) {
        let (mut lengths, _) = self.lengths();
        lengths[0] = about(&mut self.random, 1);
        let short = lengths[0] < 1 || lengths[1] < WORK || lengths[2] < VALUES;
        let (outcome, place) = self.beside.explain(&mut self.random, sheet, list, lengths);
        if let Ok(answer) = outcome {
            let [number, node, ..] = fields(answer);
            if number == DENIED.into() {
                self.named.insert(node);
                self.places.extend(place);
            }
        }
        self.count(if short { "list, an area too short" } else { sort }, "explain", outcome);
    }

    /// Lengths of the areas that making a table is lent, and whether one is too short.
    fn lengths(&mut self) -> ([usize; 3], bool) {
        let lengths = [LARGEST, WORK, VALUES].map(|length| about(&mut self.random, length));
        (lengths, lengths[0] < LARGEST || lengths[1] < WORK || lengths[2] < VALUES)
    }

    /// Keeps a table that was made.
    fn keep(&mut self, outcome: &Outcome, out: &[u8]) {
        if let Ok(answer) = outcome {
            let [number, _, actions, rows] = fields(*answer);
            if number == 0 {
                self.pool.keep(&mut self.random, &out[..8 + actions as usize * rows as usize]);
            }
        }
    }

    /// Reads a text, and compiles the sheet that it gives, or explains a list by it.
    fn text(&mut self) {
        let (sort, text) = any_text(&mut self.random);
        let actions = any_actions(&mut self.random);
        let length = match self.random.below(100) {
            0 => OUTPUT - 1,
            1 => self.random.below(OUTPUT),
            2..=69 => OUTPUT,
            _ => OUTPUT + self.random.below(39),
        };
        let (outcome, out) = self.beside.read_text(&mut self.random, &text, &actions, length);
        let read = outcome.as_ref().map_or([14, 0, 0, 0], |answer| fields(*answer));
        self.count(sort, "read_text", outcome);
        if read[0] == 0 {
            let sheet = &out[..read[1] as usize];
            if self.random.chance(70) {
                self.compile("sheet, of a text", sheet);
            } else {
                let list = list_for(&mut self.random, sheet);
                self.explain("list, the sheet of a text", sheet, &list);
            }
        }
    }

    fn table(&mut self) {
        let actions = 1 + self.random.below(16);
        let (sort, table) = self.pool.any_table(&mut self.random, actions);
        let outcome = self.beside.load(&mut self.random, &table);
        self.count(sort, "load", outcome);
    }

    /// One call on a board of any bytes.
    fn board(&mut self) {
        let mut board = any_board(&mut self.random, &self.pool);
        self.call(board.sort, &mut board.record, &mut board.area, board.actions, 10);
    }

    /// A history of calls from a new board.
    fn history(&mut self) {
        let random = &mut self.random;
        let actions = if random.chance(75) { 1 + random.below(4) } else { 1 + random.below(16) };
        let mut record = vec![0; RECORD + random.below(20)];
        let mut area = vec![0; AREA + random.below(20)];
        random.fill(&mut record);
        random.fill(&mut area);
        let outcome = self.beside.board(&mut self.random, &mut record, &mut area, Call::New);
        self.count("history", "new_board", outcome);
        for _ in 0..HISTORY {
            self.call("history", &mut record, &mut area, actions, 0);
        }
    }

    /// Some call on a board, in so many cases of a hundred a new board.
    fn call(&mut self, sort: &'static str, record: &mut [u8], area: &mut [u8], actions: usize, new: usize) {
        let random = &mut self.random;
        let place = number(random, PLACES);
        let others = if random.chance(95) { actions } else { 1 + random.below(16) };
        let table =
            if random.chance(80) { self.pool.accepted(random, others) } else { self.pool.any_table(random, others).1 };
        let call = match random.below(100) {
            n if n < new => Call::New,
            0..=29 => Call::PutOn(place, &table),
            30..=41 => Call::TakeOff(place),
            _ => Call::Action(number(random, actions)),
        };
        let outcome = self.beside.board(random, record, area, call);
        self.count(sort, call.name(), outcome);
    }
}

/// How often a call answered each number.
fn by_number(counts: &BTreeMap<(&'static str, u16), usize>, name: &str) -> String {
    let of_call = counts.iter().filter(|((call, _), _)| *call == name);
    let list: Vec<String> = of_call.map(|((_, number), count)| format!("{number}: {count}")).collect();
    list.join(", ")
}

fn main() {
    let mut arguments = std::env::args().skip(1).map(|word| word.parse::<u64>().expect("a number"));
    let calls = arguments.next().unwrap_or(1_200_000) as usize;
    let seed = arguments.next().unwrap_or(1);
    let mut fuzz = Fuzz {
        random: Random(seed),
        beside: Beside::new(),
        desk: Desk::new(),
        pool: Pool::default(),
        sorts: BTreeMap::new(),
        answers: BTreeMap::new(),
        named: BTreeSet::new(),
        places: BTreeSet::new(),
        pairs: BTreeMap::new(),
        waits: BTreeMap::new(),
        one_over: 0,
        formulas: BTreeMap::new(),
        calls: 0,
        disagreements: 0,
    };
    while fuzz.calls < calls && fuzz.disagreements < ENOUGH {
        match fuzz.random.below(211) {
            0..=39 => fuzz.sheet(),
            40..=69 => fuzz.table(),
            70..=98 => fuzz.board(),
            99..=138 => fuzz.text(),
            139..=158 => fuzz.join(),
            159..=183 => fuzz.list(),
            184..=193 => fuzz.spare_nodes(),
            194..=201 => fuzz.waits(),
            202..=209 => fuzz.formulas(),
            _ => fuzz.history(),
        }
    }
    println!("inputs by sort");
    fuzz.sorts.iter().for_each(|(sort, count)| println!("{count:>9}  {sort}"));
    println!("answers by call and number (0 done, 255 denied)");
    for name in ["read_text", "compile", "join", "explain", "load", "new_board", "put_on", "take_off", "action"] {
        println!("{name:>9}  {}", by_number(&fuzz.answers, name));
    }
    let pairs: usize = fuzz.pairs.values().sum();
    println!("{pairs} pairs of a sheet with spare nodes and the same without that answer alike, by call and number");
    for name in ["compile", "explain"] {
        println!("{name:>9}  {}", by_number(&fuzz.pairs, name));
    }
    let waits: usize = fuzz.waits.values().sum();
    println!(
        "{waits} pairs of a Fulfilling and the same written otherwise that answer alike, by call and number ({} more, \
         of which 8 or 9 refuses one alone)",
        fuzz.one_over
    );
    for name in ["compile", "explain"] {
        println!("{name:>9}  {}", by_number(&fuzz.waits, name));
    }
    let formulas: usize = fuzz.formulas.values().sum();
    println!(
        "{formulas} pairs of a sheet and the same with its formulas written otherwise that answer alike, by call and \
         number"
    );
    for name in ["compile", "explain"] {
        println!("{name:>9}  {}", by_number(&fuzz.formulas, name));
    }
    let farthest = fuzz.places.last().copied().unwrap_or(0);
    println!("{} nodes named, {} places up to {farthest}", fuzz.named.len(), fuzz.places.len());
    println!("{} calls, seed {seed}", fuzz.calls);
    println!("{} disagreements", fuzz.disagreements);
    std::process::exit((fuzz.disagreements > 0) as i32);
}
