//! The reference against the answers that are stated beside the cases, those of "A small roastery" first.

use reference::cases::histories;
use reference::cases::{
    counted, formulas, sheets, small_roastery, small_roastery_table, spare, table_bytes, tables, type_byte, waits,
    Case, Lent, Stated,
};
use reference::corpus::calls::Desk;
use reference::trees::*;
use reference::{calls, load, Refusal};

/// Compiles a case with the areas that it lends.
fn answer_to(case: &Case) -> Result<Vec<u8>, Refusal> {
    let short = |lent, length: usize| if case.lent == lent { length - 1 } else { length };
    let mut out = vec![0; short(Lent::ShortOutput, 1032)];
    let mut work = vec![1; short(Lent::ShortWork, calls::WORK)];
    let mut values = vec![1; short(Lent::ShortValues, calls::VALUES)];
    let answer = calls::compile(&case.sheet, &mut out, &mut work, &mut values);
    let [number, value, actions, rows] = calls::bytes(answer);
    match number {
        0 => Ok(out[..8 + actions as usize * rows as usize].to_vec()),
        _ => Err(Refusal { number, spot: value.into() }),
    }
}

fn check(case: Case) {
    let result = answer_to(&case);
    match case.stated {
        Stated::Table(text) => assert_eq!(result, Ok(table_bytes(text)), "{}", case.name),
        Stated::Rows(kind, rows) => {
            let table = result.as_ref().expect(&case.name);
            assert_eq!((table[0], table[4] as usize), (type_byte(kind), rows), "{}", case.name);
        }
        Stated::Refused(number, spot) => {
            assert_eq!(result, Err(Refusal { number, spot: spot.into() }), "{}", case.name)
        }
    }
    if let Ok(table) = result {
        assert_eq!(load(&table).map(|loaded| loaded.length()), Ok(table.len()), "{}", case.name);
    }
}

#[test]
fn papers_cases() {
    small_roastery().into_iter().for_each(check);
}

#[test]
fn shorter_and_longer_waits() {
    waits().into_iter().for_each(check);
}

#[test]
fn sheet_of_78_bytes() {
    let case = small_roastery().pop().expect("the last case");
    assert_eq!(case.sheet.len(), 78);
    assert_eq!(small_roastery_table(&case.name), [1, 0, 4, 0, 2, 0, 8, 0, 1, 0, 0, 0, 255, 0, 1, 1]);
}

#[test]
fn stated_sheets() {
    sheets::all().into_iter().for_each(check);
}

#[test]
fn sheets_with_spare_nodes() {
    spare::all().into_iter().for_each(check);
}

#[test]
fn sheets_of_formulas() {
    formulas::all().into_iter().for_each(check);
}

#[test]
fn counted_sheets() {
    counted::all().into_iter().for_each(check);
}

#[test]
fn values_at_the_limit() {
    let explored = reference::compile::machines(&many_values().sheet(&TWO)).unwrap().pop().unwrap();
    assert_eq!(explored.states(), 1022);
}

#[test]
fn stated_tables() {
    for case in tables::all() {
        assert_eq!(load(&case.bytes), case.stated, "{}", case.name);
    }
}

#[test]
fn stated_histories() {
    for history in histories::all() {
        let mut desk = Desk::default();
        for (number, step) in history.steps.iter().enumerate() {
            let answer = desk.call(&step.call, step.short);
            assert_eq!(answer, step.answer.bytes(), "{}, call {number}", history.name);
        }
    }
}
