//! The roast prints what examples/roast.c prints; refusals, sheets and tables come through the wrappers whole.

use lemondarts::{
    compile, explain, join, load, read_text, version, Answer, Board, Denial, Refusal, Table, Type, Verdict,
};
use std::process::Command;

#[test]
fn prints_the_roast() {
    let output = Command::new(env!("CARGO_BIN_EXE_roast")).output().unwrap();
    assert!(output.status.success());
    assert_eq!(String::from_utf8(output.stdout).unwrap(), include_str!("../../roast.txt"));
}

#[test]
fn the_archive_is_of_this_version() {
    let parts = env!("CARGO_PKG_VERSION").split('.').map(|part| part.parse::<u64>().unwrap());
    assert_eq!(version(), parts.fold(0, |number, part| 100 * number + part));
}

#[test]
fn a_permitted_action_that_fulfils_a_rule() {
    let mut board = Board::new();
    let table = compile(include_bytes!("../../eventually_drop.sheet")).unwrap();
    assert_eq!((table.of, table.actions, table.rows), (Type::Watched, 4, 1));
    assert_eq!(load(table.bytes()), Ok(table.clone()));
    board.put_on(5, &table).unwrap();
    let Ok(Verdict::Permitted(places)) = board.action(1) else { panic!("not permitted") };
    assert_eq!(places.iter().collect::<Vec<_>>(), [5]);
}

#[test]
fn a_rule_typed_as_text() {
    let rule = include_str!("../../house/at_most_three_charges.rule").split_once('\n').unwrap().1;
    let sheet = read_text(rule.as_bytes(), &[1, 2, 4, 8, 16]).unwrap();
    let table = compile(&sheet).unwrap();
    assert_eq!(table, compile(include_bytes!("../../house/at_most_three_charges.sheet")).unwrap());
    let mut board = Board::new();
    board.put_on(0, &table).unwrap();
    let verdicts = [0, 0, 1, 0, 0].map(|action| board.action(action).unwrap());
    assert!(verdicts[..4].iter().all(|verdict| matches!(verdict, Verdict::Permitted(_))));
    assert_eq!(verdicts[4], Verdict::Denied(0));
}

#[test]
fn texts_that_are_no_rules() {
    let refused = |number, word| Err(Refusal { number, node: None, word });
    assert_eq!(read_text(b"enforce now p0", &[1, 2]), refused(32, Some(1)));
    assert_eq!(read_text(b"", &[1, 2]), refused(32, Some(0)));
    assert_eq!(read_text(b"watch now p0", &[]), refused(2, None));
    assert_eq!(read_text(&[b' '; 1025], &[1]), refused(31, None));
    assert_eq!(read_text(format!("watch {}count 1", "eventually ".repeat(64)).as_bytes(), &[1]), refused(33, None));
    assert_eq!(read_text(b"watch now", &[1]).unwrap_err().to_string(), "refused 32 at word 2");
}

#[test]
fn a_shops_rules_as_one_table() {
    let tray = compile(include_bytes!("../../no_charge_before_tray.sheet")).unwrap();
    let between = compile(include_bytes!("../../drop_between_charges.sheet")).unwrap();
    let joined = join(&[&tray, &between]).unwrap();
    assert_eq!(joined.bytes(), [1, 0, 4, 0, 3, 0, 8, 0, 255, 0, 1, 0, 2, 1, 1, 1, 255, 1, 2, 2]);
    assert_eq!((joined.of, joined.actions, joined.rows), (Type::Enforced, 4, 3));
    assert_eq!(load(joined.bytes()), Ok(joined.clone()));
    assert_eq!(join(&[&between, &tray, &joined]), Ok(joined.clone()));
    let mut board = Board::new();
    board.put_on(6, &joined).unwrap();
    let verdicts = [0, 2, 0, 0, 1, 0].map(|action| matches!(board.action(action), Ok(Verdict::Permitted(_))));
    assert_eq!(verdicts, [false, true, true, false, true, true]);
}

#[test]
fn tables_that_are_not_joined() {
    let refused = |number| Err(Refusal { number, node: None, word: None });
    let tray = compile(include_bytes!("../../no_charge_before_tray.sheet")).unwrap();
    let five = compile(include_bytes!("../../no_charge_before_tray_5.sheet")).unwrap();
    let watched = compile(include_bytes!("../../eventually_drop.sheet")).unwrap();
    assert_eq!(join(&[]), refused(2));
    assert_eq!(join(&[&tray]), refused(2));
    assert_eq!(join(&[&tray; 9]), refused(2));
    assert_eq!(join(&[&tray, &watched, &five]), refused(34));
    assert_eq!(join(&[&tray, &five]), refused(23));
    let at_most = |most: u8, action: u8| -> Table {
        let text = format!("enforce ignoring not p{action} not count {most}");
        compile(&read_text(text.as_bytes(), &[1, 2]).unwrap()).unwrap()
    };
    assert_eq!(join(&[&at_most(33, 0), &at_most(32, 1)]), refused(8));
    assert_eq!(join(&[&at_most(32, 0), &at_most(32, 1)]), refused(9));
    assert_eq!(join(&[&at_most(8, 0), &at_most(8, 1)]).map(|table| table.rows), Ok(64));
}

#[test]
fn the_part_of_a_rule_that_denied() {
    let rule = b"enforce and before eventually now p2 always holds not p0 and ignoring not p0 not count 3 not count 6";
    let sheet = read_text(rule, &[1, 2, 4, 8]).unwrap();
    let denied = |place, node| Ok(Some(Denial { place, node }));
    assert_eq!(explain(&sheet, &[]), Ok(None));
    assert_eq!(explain(&sheet, &[3, 2, 0, 1, 0]), Ok(None));
    assert_eq!(explain(&sheet, &[3, 0]), denied(1, 7));
    assert_eq!(explain(&sheet, &[2, 0, 1, 0, 0, 3]), denied(4, 12));
    assert_eq!(explain(&sheet, &[3; 9]), denied(5, 14));

    // The board denies what is explained.
    let mut board = Board::new();
    board.put_on(0, &compile(&sheet).unwrap()).unwrap();
    let permitted = [2, 0, 1, 0].map(|action| matches!(board.action(action), Ok(Verdict::Permitted(_))));
    assert_eq!((permitted, board.action(0)), ([true; 4], Ok(Verdict::Denied(0))));

    let mut list = vec![1; 70_000];
    let no_charge = include_bytes!("../../never_charge.sheet");
    assert_eq!(explain(no_charge, &list), Ok(None));
    list.push(0);
    assert_eq!(explain(no_charge, &list), denied(70_000, 3));
}

#[test]
fn lists_that_are_not_explained() {
    let refused = |number, node| Err(Refusal { number, node, word: None });
    let no_charge = include_bytes!("../../never_charge.sheet");
    assert_eq!(explain(no_charge, &[1, 0, 4]), refused(12, None));
    assert_eq!(explain(include_bytes!("../../eventually_drop.sheet"), &[4]), refused(34, None));
    assert_eq!(explain(include_bytes!("../../eventually_holds_drop.sheet"), &[4]), refused(6, Some(2)));
    assert_eq!(explain(&no_charge[1..], &[0]), refused(1, None));
}

#[test]
fn refusals() {
    let refused = |number, node| Refusal { number, node, word: None };
    assert_eq!(compile(include_bytes!("../../eventually_holds_drop.sheet")), Err(refused(6, Some(2))));
    assert_eq!(compile(&[]), Err(refused(1, None)));
    assert_eq!(load(&[]), Err(refused(10, None)));
    let mut board = Board::new();
    assert_eq!(board.action(0), Err(refused(24, None)));
    assert_eq!(board.take_off(8), Err(refused(13, None)));
    assert_eq!(refused(6, Some(2)).to_string(), "refused 6 at node 2");
}

#[test]
fn fields_of_16_bits() {
    assert_eq!(Answer::from(64 << 48 | 16 << 32 | 2 << 16), Answer::Done { value: 2, actions: 16, rows: 64 });
    assert_eq!(Answer::from(7 << 16 | 255), Answer::Denied { place: 7 });
    assert_eq!(Answer::from(63 << 16 | 9), Answer::Refused(Refusal { number: 9, node: Some(63), word: None }));
}
