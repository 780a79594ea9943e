//! The house rules (examples/house) as texts: NAME.rule beside NAME.sheet.

/// A rule's file, and the sheet that means the same.
pub struct House {
    pub name: &'static str,
    pub rule: &'static str,
    pub sheet: &'static [u8],
}

macro_rules! house {
    ($name:literal) => {
        House {
            name: $name,
            rule: include_str!(concat!("../../../examples/house/", $name, ".rule")),
            sheet: include_bytes!(concat!("../../../examples/house/", $name, ".sheet")),
        }
    };
}

/// The seven that are joined, and a report.
pub const RULES: [House; 8] = [
    house!("no_charge_before_the_tray"),
    house!("drop_between_two_charges"),
    house!("log_among_the_first_three"),
    house!("no_gas_on_an_empty_drum"),
    house!("at_most_three_charges"),
    house!("no_drop_right_after_a_charge"),
    house!("log_before_the_next_charge"),
    house!("report_the_third_drop"),
];

/// A wait for something that has no bound.
pub const WITHIN: House = house!("log_within_three_of_a_charge");

/// The other two of examples/house: one that can be said, and one that cannot, as nothing that is denied makes a drop come.
pub const REPORT: House = house!("report_the_drop");
pub const UNSAYABLE: House = house!("the_drop_must_come");

impl House {
    /// The action list, which is the first line: a word an action, its propositions joined by `+`.
    pub fn actions(&self) -> Vec<u16> {
        let proposition = |name: &str| -> u16 { 1 << name[1..].parse::<u8>().expect("p and a number") };
        let action = |word: &str| word.split('+').map(proposition).fold(0, |set, bit| set | bit);
        self.rule.lines().next().expect("an action list").split(' ').map(action).collect()
    }

    /// The text, which is all lines below.
    pub fn text(&self) -> &'static str {
        self.rule.split_once('\n').expect("a rule below its actions").1
    }
}
