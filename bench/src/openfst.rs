//! Minimisation by the reference and by OpenFst, on the machines that a sheet's nodes explore.

use crate::{compiler, median, medians_of};
use reference::compile::{build, machine};
use reference::machine::Machine;
use reference::sheet::Sheet;
use std::collections::HashSet;
use std::fmt::Write as _;
use std::hint::black_box;
use std::io::Write as _;
use std::process::{Command, Stdio};

const ROUNDS: usize = 5;
/// Repetitions in a round.
const REPETITIONS: usize = 21;

/// The machines of the nodes that a sheet uses before minimisation, up to the first that is refused.
fn machines(sheet: &Sheet) -> Vec<Machine> {
    let types = sheet.types().expect("a sheet that passes 1 to 7");
    let formulas = sheet.formula_sets();
    let (mut all, mut rows) = (Vec::new(), Vec::new());
    for node in 0..types.len() {
        let Ok(explored) = machine(sheet, &types, &formulas, &rows, node) else { break };
        all.extend(explored);
        let Ok(built) = build(sheet, &types, &formulas, &rows, node) else { break };
        rows.push(built);
    }
    all
}

pub fn header() {
    println!(
        "{:42} {:>8} {:>10} {:>10} {:>10} {:>11} {:>11}",
        "machines of", "states", "library", "reference", "OpenFst", "lib/OpenFst", "ref/OpenFst"
    );
}

pub fn compare(name: &str, program: Option<&str>, sheets: &[Sheet]) {
    let machines: Vec<Machine> = sheets.iter().flat_map(machines).collect();
    let bytes: Vec<Vec<u8>> = sheets.iter().map(Sheet::bytes).collect();
    let mut minimise = || {
        for machine in &machines {
            black_box(black_box(machine).canonical());
        }
    };
    // In rounds, so that all see the machine alike.
    let mut times = [Vec::new(), Vec::new(), Vec::new()];
    for _ in 0..ROUNDS {
        let [library, reference] = medians_of(REPETITIONS, [&mut compiler(&bytes), &mut minimise]);
        times[0].push(library);
        times[1].push(reference);
        times[2].push(program.map_or(0.0, |program| by_openfst(program, &machines)));
    }
    let [library, reference, openfst] = times.map(median);
    let states: usize = machines.iter().map(Machine::states).sum();
    print!("{name:42} {states:8} {library:10.1} {reference:10.1}");
    match program {
        None => println!("  libfst-dev is missing"),
        Some(_) => println!(" {openfst:10.1} {:11.2} {:11.2}", library / openfst, reference / openfst),
    }
}

/// The time of OpenFst on these machines; its results must have as many states.
fn by_openfst(program: &str, machines: &[Machine]) -> f64 {
    let mut text = format!("{REPETITIONS}\n");
    for machine in machines {
        write!(text, "{} {}", machine.states(), machine.actions).unwrap();
        for next in &machine.next {
            write!(text, " {}", next.map_or(-1, |state| state as i64)).unwrap();
        }
        text.push('\n');
    }
    let output = output_of(program, text);
    assert_eq!(output.lines().count(), machines.len());
    let mut total = 0.0;
    for (line, machine) in output.lines().zip(machines) {
        let (time, states) = line.split_once(' ').expect("two numbers");
        total += time.parse::<f64>().expect("a time");
        assert_eq!(states.parse(), Ok(states_left(machine)), "OpenFst and the reference differ");
    }
    total
}

/// What one of the programs for OpenFst writes of an input.
pub fn output_of(program: &str, text: String) -> String {
    let child = Command::new(program).stdin(Stdio::piped()).stdout(Stdio::piped()).spawn();
    let mut child = child.expect("the program of minimise.cc or intersect.cc");
    let mut input = child.stdin.take().expect("a pipe");
    let writer = std::thread::spawn(move || input.write_all(text.as_bytes()).expect("the machines are read"));
    let output = child.wait_with_output().expect("an output");
    writer.join().expect("all is written");
    assert!(output.status.success(), "{program} ends with {}", output.status);
    String::from_utf8(output.stdout).expect("text")
}

/// The states that OpenFst leaves: it drops those that never trip, and has one for the trip.
fn states_left(machine: &Machine) -> usize {
    let mut trips = vec![false; machine.states()];
    for _ in 0..machine.states() {
        for state in (0..machine.states()).rev() {
            let row = &machine.next[state * machine.actions..][..machine.actions];
            trips[state] |= row.iter().any(|next| next.is_none_or(|next| trips[next]));
        }
    }
    let class = machine.classes();
    let classes: HashSet<usize> =
        (0..machine.states()).filter(|&state| trips[state]).map(|state| class[state]).collect();
    classes.len() + trips[0] as usize
}
