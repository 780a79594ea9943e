//! One call through the library and through the reference, on equal inputs; all bytes compared.

use crate::lent::Lent;
use crate::library;
use reference::calls::{self, VALUES, WORK};
use reference::generate::Random;
use std::fmt::Write;

/// A call of the board.
#[derive(Clone, Copy)]
pub enum Call<'a> {
    New,
    PutOn(usize, &'a [u8]),
    TakeOff(usize),
    Action(usize),
}

impl Call<'_> {
    pub fn name(&self) -> &'static str {
        match self {
            Call::New => "new_board",
            Call::PutOn(..) => "put_on",
            Call::TakeOff(_) => "take_off",
            Call::Action(_) => "action",
        }
    }
}

/// The buffers that the library is given, and those that the reference works on.
pub struct Beside {
    input: Lent<u8>,
    actions: Lent<u16>,
    list: Lent<u8>,
    out: Lent<u8>,
    place: Lent<u64>,
    work: Lent<u8>,
    values: Lent<u64>,
    record: Lent<u8>,
    area: Lent<u8>,
    expected_work: Vec<u8>,
    expected_values: Vec<u64>,
}

/// The answer of both, or what differs.
pub type Outcome = Result<u64, String>;

impl Beside {
    pub fn new() -> Beside {
        Beside {
            input: Lent::new(),
            actions: Lent::new(),
            list: Lent::new(),
            out: Lent::new(),
            place: Lent::new(),
            work: Lent::new(),
            values: Lent::new(),
            record: Lent::new(),
            area: Lent::new(),
            expected_work: Vec::new(),
            expected_values: Vec::new(),
        }
    }

    pub fn load(&mut self, random: &mut Random, table: &[u8]) -> Outcome {
        self.input.hold(random, table);
        let answer = library::load(self.input.contents());
        let mut report = Report::new("load", answer, calls::load(table));
        report.same("table", &mut self.input, table);
        report.close(&[("table", table)], "")
    }

    /// Compiles with areas of these lengths, filled with junk; gives `out` as it stands then.
    pub fn compile(&mut self, random: &mut Random, sheet: &[u8], lengths: [usize; 3]) -> (Outcome, Vec<u8>) {
        self.make(random, "compile", None, sheet, lengths)
    }

    /// Joins so many tables, in the same way.
    pub fn join(
        &mut self,
        random: &mut Random,
        count: usize,
        tables: &[u8],
        lengths: [usize; 3],
    ) -> (Outcome, Vec<u8>) {
        self.make(random, "join", Some(count), tables, lengths)
    }

    /// Makes a table: of a sheet, or of so many tables.
    fn make(
        &mut self,
        random: &mut Random,
        call: &'static str,
        count: Option<usize>,
        input: &[u8],
        lengths: [usize; 3],
    ) -> (Outcome, Vec<u8>) {
        let mut out = vec![0; lengths[0]];
        random.fill(&mut out);
        self.input.hold(random, input);
        self.out.hold(random, &out);
        self.lend_work(random, lengths[1], lengths[2]);
        let (lent, lent_out) = (self.input.contents(), self.out.contents());
        let (lent_work, lent_values) = (self.work.contents(), self.values.contents());
        let answer = match count {
            None => library::compile(lent, lent_out, lent_work, lent_values),
            Some(count) => library::join(count, lent, lent_out, lent_work, lent_values),
        };

        let before = out.clone();
        let (work, values) = (&mut self.expected_work, &mut self.expected_values);
        let expected = match count {
            None => calls::compile(input, &mut out, work, values),
            Some(count) => calls::join(count, input, &mut out, work, values),
        };
        let mut report = Report::new(call, answer, expected);
        report.same("input", &mut self.input, input);
        report.same("out", &mut self.out, &out);
        self.compare_work(&mut report);
        if answer as u16 != 0 && *self.out.contents() != before[..] {
            report.differs("refused, but out is changed");
        }
        let numbers = format!("lengths of out, work, values: {lengths:?}; count: {count:?}");
        (report.close(&[("input", input)], &numbers), out)
    }

    /// Explains with areas of these lengths, filled with junk; gives the place as it stands then.
    pub fn explain(
        &mut self,
        random: &mut Random,
        sheet: &[u8],
        list: &[u8],
        lengths: [usize; 3],
    ) -> (Outcome, Option<u64>) {
        let mut place: Vec<u64> = (0..lengths[0]).map(|_| random.draw()).collect();
        self.input.hold(random, sheet);
        self.list.hold(random, list);
        self.place.hold(random, &place);
        self.lend_work(random, lengths[1], lengths[2]);
        let (lent, lent_list, lent_place) = (self.input.contents(), self.list.contents(), self.place.contents());
        let answer = library::explain(lent, lent_list, lent_place, self.work.contents(), self.values.contents());

        let before = place.clone();
        let expected = calls::explain(sheet, list, &mut place, &mut self.expected_work, &mut self.expected_values);
        let mut report = Report::new("explain", answer, expected);
        report.same("sheet", &mut self.input, sheet);
        report.same("list", &mut self.list, list);
        report.same("place", &mut self.place, &place);
        self.compare_work(&mut report);
        let written = (answer as u16 == calls::DENIED.into()) as usize;
        if self.place.contents()[written..] != before[written..] {
            report.differs("place is changed after its first number, or though nothing is denied");
        }
        let numbers = format!("lengths of place, work, values: {lengths:?}");
        (report.close(&[("sheet", sheet), ("list", list)], &numbers), place.first().copied())
    }

    /// Lends work areas of these lengths, filled with junk.
    fn lend_work(&mut self, random: &mut Random, work: usize, values: usize) {
        self.expected_work.resize(work, 0);
        random.fill(&mut self.expected_work);
        self.expected_values.resize(values, 0);
        self.expected_values.iter_mut().for_each(|value| *value = random.draw());
        self.work.hold(random, &self.expected_work);
        self.values.hold(random, &self.expected_values);
    }

    /// Holds the work areas to what the reference has, and to zeros but where the answer is 14.
    fn compare_work(&mut self, report: &mut Report) {
        report.same("work", &mut self.work, &self.expected_work);
        report.same("values", &mut self.values, &self.expected_values);
        let cleared = report.answer as u16 == 14
            || self.work.contents()[..WORK].iter().all(|&byte| byte == 0)
                && self.values.contents()[..VALUES].iter().all(|&value| value == 0);
        if !cleared {
            report.differs("a work area is not zero");
        }
    }

    /// Reads a text with an output of this length, filled with junk; gives the output as it stands then.
    pub fn read_text(
        &mut self,
        random: &mut Random,
        text: &[u8],
        actions: &[u16],
        length: usize,
    ) -> (Outcome, Vec<u8>) {
        let mut out = vec![0; length];
        random.fill(&mut out);
        self.input.hold(random, text);
        self.actions.hold(random, actions);
        self.out.hold(random, &out);
        let answer = library::read_text(self.input.contents(), self.actions.contents(), self.out.contents());

        let before = out.clone();
        let expected = calls::read_text(text, actions, &mut out);
        let mut report = Report::new("read_text", answer, expected);
        report.same("text", &mut self.input, text);
        report.same("actions", &mut self.actions, actions);
        report.same("out", &mut self.out, &out);
        let [number, written, ..] = calls::fields(answer);
        let kept = if number == 0 { (written as usize).min(length) } else { 0 };
        if self.out.contents()[kept..] != before[kept..] {
            report.differs("out is changed after the sheet, or though it is refused");
        }
        let numbers = format!("actions: {actions:?}, length of out: {length}, text: \"{}\"", text.escape_ascii());
        (report.close(&[], &numbers), out)
    }

    /// Calls the board; record and area are left as the reference leaves them.
    pub fn board(&mut self, random: &mut Random, record: &mut [u8], area: &mut [u8], call: Call) -> Outcome {
        let (record_before, area_before) = (record.to_vec(), area.to_vec());
        self.record.hold(random, record);
        self.area.hold(random, area);
        let table = if let Call::PutOn(_, table) = call { table } else { &[] };
        self.input.hold(random, table);

        let (lent_record, lent_area) = (self.record.contents(), self.area.contents());
        let (answer, expected, number) = match call {
            Call::New => (library::new_board(lent_record, lent_area), calls::new_board(record, area), 0),
            Call::PutOn(place, table) => (
                library::put_on(lent_record, lent_area, place, self.input.contents()),
                calls::put_on(record, area, place, table),
                place,
            ),
            Call::TakeOff(place) => {
                (library::take_off(lent_record, lent_area, place), calls::take_off(record, area, place), place)
            }
            Call::Action(action) => {
                (library::action(lent_record, lent_area, action), calls::action(record, area, action), action)
            }
        };
        let mut report = Report::new(call.name(), answer, expected);
        report.same("table", &mut self.input, table);
        report.same("record", &mut self.record, record);
        report.same("area", &mut self.area, area);
        let changed = *self.record.contents() != record_before[..] || *self.area.contents() != area_before[..];
        if answer as u16 != 0 && changed {
            report.differs("refused or denied, but the board is changed");
        }
        let inputs = [("record", &record_before[..]), ("area", &area_before), ("table", table)];
        report.close(&inputs, &format!("place or action {number}"))
    }
}

/// What differs in one call.
struct Report {
    call: &'static str,
    answer: u64,
    text: String,
}

impl Report {
    fn new(call: &'static str, answer: u64, expected: u64) -> Report {
        let mut report = Report { call, answer, text: String::new() };
        if answer != expected {
            let (answer, expected) = (calls::fields(answer), calls::fields(expected));
            report
                .differs(&format!("answer {answer:?}, reference {expected:?} (number, value, actions, rows or nodes)"));
        }
        report
    }

    fn differs(&mut self, what: &str) {
        writeln!(self.text, "  {what}").unwrap();
    }

    /// Holds an area's contents to what the reference has, and its guards to what they were.
    fn same<T: Copy + PartialEq + From<u8> + std::fmt::Debug>(
        &mut self,
        name: &str,
        lent: &mut Lent<T>,
        expected: &[T],
    ) {
        if !lent.guarded() {
            self.differs(&format!("{name}: written outside"));
        }
        let contents = lent.contents();
        if *contents != *expected {
            let place = (0..expected.len()).find(|&n| contents[n] != expected[n]).unwrap();
            let (here, there) = (contents[place], expected[place]);
            self.differs(&format!("{name}: {here:?} at {place}, reference {there:?}"));
        }
    }

    fn close(mut self, inputs: &[(&str, &[u8])], numbers: &str) -> Outcome {
        if self.text.is_empty() {
            return Ok(self.answer);
        }
        for (name, bytes) in inputs {
            let hex: String = bytes.iter().map(|byte| format!("{byte:02x}")).collect();
            writeln!(self.text, "  {name}, {} bytes: {hex}", bytes.len()).unwrap();
        }
        Err(format!("{}: {numbers}\n{}", self.call, self.text))
    }
}
