//! Reading a text, as a ratio to compiling the sheet that it gives and to the reference's reader.

use crate::{compiler, library, medians};
use reference::calls;
use reference::cases::texts::{house_rules, roastery, TextCase};
use reference::generate::Random;
use reference::inputs::texts::rule;
use reference::sheet::Sheet;
use reference::text::OUTPUT;
use std::hint::black_box;

/// A text and its action list.
type Text = (Vec<u8>, Vec<u16>);

fn sheet_of((text, actions): &Text) -> Option<Sheet> {
    reference::read_text(text, actions).ok()
}

fn compiles(text: &Text) -> bool {
    sheet_of(text).is_some_and(|sheet| reference::compile(&sheet.bytes()).is_ok())
}

/// A reader over some texts, with an output of its own.
fn reader<'a>(call: impl Fn(&[u8], &[u16], &mut [u8]) -> u64 + 'a, texts: &'a [Text]) -> impl FnMut() + 'a {
    let mut out = vec![0; OUTPUT];
    move || {
        for (text, actions) in texts {
            assert!(call(black_box(text), actions, &mut out) as u16 == 0);
        }
    }
}

fn line(on: &str, texts: &[Text]) {
    let sheets: Vec<Sheet> = texts.iter().map(|text| sheet_of(text).expect("a rule")).collect();
    let bytes: Vec<Vec<u8>> = sheets.iter().map(Sheet::bytes).collect();
    let functions: [&mut dyn FnMut(); 3] =
        [&mut reader(library::read_text, texts), &mut compiler(&bytes), &mut reader(calls::read_text, texts)];
    let [reading, compiling, reference] = medians(functions);
    let each = |time: f64| time / texts.len() as f64;
    let mean = |sum: usize| sum / texts.len();
    let length = mean(texts.iter().map(|(text, _)| text.len()).sum());
    let nodes = mean(sheets.iter().map(|sheet| sheet.nodes.len()).sum());
    println!(
        "{on:52} {length:6} {nodes:6} {:10.3} {:10.3} {:9.3} {:10.3} {:7.2}",
        each(reading),
        each(compiling),
        reading / compiling,
        each(reference),
        reading / reference
    );
}

/// The first drawn rule of 64 nodes over 16 actions whose table has eight rows or more.
fn of_64_nodes() -> (Text, u8) {
    let mut random = Random(64);
    let actions: Vec<u16> = (0..16).map(|action| 1 << action).collect();
    let drawn = std::iter::repeat_with(|| {
        let (first, policy) = rule(&mut random, 64);
        let text = format!("{first} {}", policy.words().join(" "));
        let sheet = reference::read_text(text.as_bytes(), &actions).ok()?;
        let rows = reference::compile(&sheet.bytes()).ok()?[4];
        (rows >= 8).then(|| ((text.into_bytes(), actions.clone()), rows))
    });
    drawn.flatten().next().expect("one such")
}

pub fn all() {
    println!("\nReading a text, in microseconds a text, beside compiling the sheet that it gives, in the same run.");
    println!("The aim: reading takes at most 0.1 of compiling. Rules that compile to a table; bytes and nodes are");
    println!("those of a text, or the mean of several.\n");
    println!(
        "{:52} {:>6} {:>6} {:>10} {:>10} {:>9} {:>10} {:>7}",
        "text", "bytes", "nodes", "reading", "compiling", "ratio", "reference", "ratio"
    );
    let all = |name: &str, cases: Vec<TextCase>| {
        let rules: Vec<(String, Text)> = cases.into_iter().map(|case| (case.name, (case.text, case.actions))).collect();
        let rules: Vec<(String, Text)> = rules.into_iter().filter(|(_, text)| compiles(text)).collect();
        rules.iter().for_each(|(name, text)| line(name, std::slice::from_ref(text)));
        let texts: Vec<Text> = rules.into_iter().map(|(_, text)| text).collect();
        line(&format!("{name} ({}) together", texts.len()), &texts);
    };
    all("the small roastery's rules", roastery());
    all("the house rules", house_rules());
    let (largest, rows) = of_64_nodes();
    line(&format!("a rule of 64 nodes, 16 actions, {rows} rows"), &[largest]);
}
