//! A roast under three rules, as examples/roast.c has it; prints examples/roast.txt.
//!
//!     cargo run --manifest-path examples/rust/Cargo.toml

use lemondarts::{compile, Board, Refusal, Sheet, Type, Verdict};

/// The roastery's actions. Each satisfies the one proposition of its number.
const NAMES: [&str; 4] = ["charge", "drop", "tray", "log"];
const CHARGE: u8 = 0;
const DROP: u8 = 1;
const TRAY: u8 = 2;
const LOG: u8 = 3;

fn begin() -> Sheet {
    Sheet::new(&[1, 2, 4, 8])
}

/// Eventually Now action.
fn once(sheet: &mut Sheet, action: u8) -> u8 {
    let proposition = sheet.proposition(action);
    let now = sheet.now(proposition);
    sheet.eventually(now)
}

/// Always Holds not action.
fn never(sheet: &mut Sheet, action: u8) -> u8 {
    let proposition = sheet.proposition(action);
    let other = sheet.negation(proposition);
    let holds = sheet.holds(other);
    sheet.always(holds)
}

/// Whenever (Eventually Now first): Before+ (Eventually Now release) (Always Holds not forbidden).
fn no_until(first: u8, forbidden: u8, release: u8) -> Sheet {
    let mut sheet = begin();
    let begun = once(&mut sheet, first);
    let released = once(&mut sheet, release);
    let held = never(&mut sheet, forbidden);
    let before = sheet.before_plus(released, held);
    let after = sheet.after_plus(begun, before);
    sheet.always(after);
    sheet
}

/// Compiles a sheet, prints the rows of its table, and puts it on.
fn put_on(board: &mut Board, place: usize, name: &str, sheet: &Sheet) -> Result<(), Refusal> {
    let table = compile(&sheet.bytes())?;
    let of = if table.of == Type::Enforced { "enforced" } else { "watched" };
    println!("place {place}: {name} ({of})");
    for row in 0..table.rows {
        print!("  row {row}:");
        for action in 0..table.actions {
            print!(" {}", table.next(row, action).map_or("-".into(), |next| next.to_string()));
        }
        println!();
    }
    board.put_on(place, &table)
}

/// Asks for an action, and prints the verdict.
fn ask(board: &mut Board, action: u8) {
    let name = NAMES.get(action as usize).map_or(format!("action {action}"), |name| name.to_string());
    match board.action(action as usize) {
        Ok(Verdict::Permitted(fulfilled)) => {
            let rules: String = fulfilled.iter().map(|place| format!(", fulfils the rule on place {place}")).collect();
            println!("{name}: permitted{rules}");
        }
        Ok(Verdict::Denied(place)) => println!("{name}: denied by the rule on place {place}"),
        Err(refusal) => println!("{name}: {refusal}"),
    }
}

fn main() -> Result<(), Refusal> {
    let mut board = Board::new();
    ask(&mut board, CHARGE);

    put_on(&mut board, 0, "after a charge, no charge before the drop", &no_until(CHARGE, CHARGE, DROP))?;
    put_on(&mut board, 1, "after a drop, no charge before the tray is empty", &no_until(DROP, CHARGE, TRAY))?;
    let mut sheet = begin();
    once(&mut sheet, DROP);
    put_on(&mut board, 2, "the drop has come", &sheet)?;

    for action in [CHARGE, CHARGE, LOG, DROP, CHARGE, DROP, TRAY, CHARGE, 4] {
        ask(&mut board, action);
    }

    board.take_off(0)?;
    println!("place 0 is empty");
    ask(&mut board, CHARGE);
    Ok(())
}
