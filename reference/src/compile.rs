//! The compiler: checks 1 to 7, then the rows of every policy node that is used, in order (8, 9).

use crate::machine::{Machine, Rows};
use crate::sheet::{Sheet, Type};
use crate::values::Rule;
use crate::{at, table, Refusal};

/// The most remembered values of a node.
pub const MOST_VALUES: usize = 1024;

/// The table of a sheet's policy. (14 is a matter of the lent areas: see `calls`.)
pub fn compile(sheet: &[u8]) -> Result<Vec<u8>, Refusal> {
    let sheet = Sheet::read(sheet)?;
    let types = sheet.types()?;
    let formulas = sheet.formula_sets();
    let mut rows = Vec::new();
    for node in 0..types.len() {
        let built = build(&sheet, &types, &formulas, &rows, node).map_err(|number| at(number, node))?;
        rows.push(built);
    }
    let last = rows.pop().flatten().expect("the last node is a policy");
    Ok(table::write(matches!(types.last(), Some(Type::Watched(_))), &last))
}

/// The rows of one node over those of the nodes before it; none for a formula and for a node that is not used. Refusals
/// 8, 9.
pub fn build(
    sheet: &Sheet,
    types: &[Type],
    formulas: &[u16],
    rows: &[Option<Rows>],
    node: usize,
) -> Result<Option<Rows>, u8> {
    match machine(sheet, types, formulas, rows, node)? {
        None => Ok(None),
        Some(machine) => machine.canonical().map(Some).ok_or(9),
    }
}

/// The machine of a node's remembered values; none for a formula and for a node that is not used. Refusal 8.
pub fn machine(
    sheet: &Sheet,
    types: &[Type],
    formulas: &[u16],
    rows: &[Option<Rows>],
    node: usize,
) -> Result<Option<Machine>, u8> {
    if matches!(types[node], Type::Formula | Type::Unused) {
        return Ok(None);
    }
    let this = sheet.nodes[node];
    let part = |part: u8| rows.get(part as usize).and_then(Option::as_ref);
    let rule = Rule {
        node: this,
        enforced: matches!(types[node], Type::Enforced(_)),
        formula: formulas.get(this.a()).copied().unwrap_or(0),
        parts: this.parts.map(part),
    };
    let step = |value: &_, action| rule.step(value, action);
    Machine::explore(rule.start(), sheet.actions.len(), MOST_VALUES, step).map(Some).ok_or(8)
}

/// The machines of all policy nodes that are used, before minimisation, of a sheet that compiles.
pub fn machines(sheet: &Sheet) -> Result<Vec<Machine>, Refusal> {
    let types = sheet.types()?;
    let formulas = sheet.formula_sets();
    let (mut all, mut rows) = (Vec::new(), Vec::new());
    for node in 0..types.len() {
        let machine = machine(sheet, &types, &formulas, &rows, node).map_err(|number| at(number, node))?;
        rows.push(match &machine {
            None => None,
            Some(machine) => Some(machine.canonical().ok_or(at(9, node))?),
        });
        all.extend(machine);
    }
    Ok(all)
}
