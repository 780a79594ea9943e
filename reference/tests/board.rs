//! The board: refusals in their order, impossible boards, and histories against the sequences.

use reference::board::{AREA, RECORD};
use reference::cases::small_roastery_table;
use reference::compile;
use reference::generate::Random;
use reference::table::LARGEST;
use reference::trees::*;
use reference::{Board, Verdict};
use Verdict::{Denied, Permitted};

fn table(tree: Tree) -> Vec<u8> {
    compile(&tree.sheet(&ROASTERY).bytes()).unwrap()
}

/// A record and an area, each with some bytes more than needed.
fn lent() -> (Vec<u8>, Vec<u8>) {
    (vec![7; RECORD + 3], vec![7; AREA + 5])
}

#[test]
fn a_shift() {
    let (mut record, mut area) = lent();
    let mut board = Board::new(&mut record, &mut area).unwrap();
    let no_charge = table(always(holds(but(prop(0)))));
    let drop = table(eventually(now(prop(1))));
    let five = compile(&count(2).sheet(&[1, 2, 4, 8, 5]).bytes()).unwrap();
    assert_eq!(board.action(0), Err(24));
    assert_eq!(board.take_off(0), Err(21));
    assert_eq!(board.put_on(8, &no_charge), Err(13));
    assert_eq!(board.take_off(8), Err(13));
    assert_eq!(board.put_on(3, &drop), Ok(()));
    assert_eq!(board.put_on(3, &[]), Err(22));
    assert_eq!(board.put_on(2, &[]), Err(10));
    assert_eq!(board.put_on(2, &[1, 0, 1, 0, 2, 0, 8, 0, 1, 0]), Err(11));
    assert_eq!(board.put_on(2, &five), Err(23));
    assert_eq!(board.action(4), Err(12));
    assert_eq!(board.action(0), Ok(Permitted(0)));
    assert_eq!(board.put_on(5, &no_charge), Ok(()));
    assert_eq!(board.put_on(4, &no_charge), Ok(()));
    assert_eq!(board.action(0), Ok(Denied(4)));
    assert_eq!(board.action(1), Ok(Permitted(8)));
    assert_eq!(board.action(1), Ok(Permitted(0))); // fulfilled once
    assert_eq!(board.put_on(3, &drop), Err(22)); // a fulfilled place is taken
    assert_eq!(board.take_off(4), Ok(()));
    assert_eq!(board.action(0), Ok(Denied(5)));
    assert_eq!(board.take_off(5), Ok(()));
    assert_eq!(board.put_on(2, &five), Err(23)); // the fulfilled rule's A
    assert_eq!(board.action(0), Ok(Permitted(0)));
    assert_eq!(board.take_off(3), Ok(()));
    assert_eq!(board.action(0), Err(24));
    assert_eq!(board.put_on(2, &five), Ok(()));
    assert_eq!(record, [&[0, 0, 0, 0, 2][..], &[0; 11], &[7; 3]].concat());
    let place = &area[2 * LARGEST..3 * LARGEST];
    assert_eq!((&place[..five.len()], &place[five.len()..]), (&five[..], &vec![0; LARGEST - five.len()][..]));
    assert_eq!(area[AREA..], [7; 5]);
    assert!(area[..2 * LARGEST].iter().chain(&area[3 * LARGEST..AREA]).all(|&byte| byte == 0));
}

#[test]
fn short_areas() {
    let (mut record, mut area) = lent();
    assert!(Board::new(&mut record[..RECORD - 1], &mut area).is_err_and(|number| number == 14));
    assert!(Board::new(&mut record, &mut area[..AREA - 1]).is_err_and(|number| number == 14));
    assert!(record.iter().chain(&area).all(|&byte| byte == 7));
}

#[test]
fn impossible_boards() {
    let watched = table(count(2));
    let enforced = table(holds(prop(1)));
    /// All answers of the board whose places 1 and 6 hold such cases, rows and tables.
    fn answers(cases: [(u8, u8); 2], tables: [&[u8]; 2]) -> [Option<u8>; 3] {
        let (mut record, mut area) = lent();
        record[..RECORD].fill(0);
        for ((place, (case, row)), table) in [1, 6].into_iter().zip(cases).zip(tables) {
            record[2 * place] = case;
            record[2 * place + 1] = row;
            area[place * LARGEST..][..table.len()].copy_from_slice(table);
        }
        let kept = (record.clone(), area.clone());
        let mut board = Board::lent(&mut record, &mut area).unwrap();
        let answers = [board.put_on(1, &[]).err(), board.take_off(0).err(), board.action(99).err()];
        assert_eq!((record, area), kept);
        answers
    }
    let possible = [Some(22), Some(21), Some(12)];
    let impossible = [Some(25); 3];
    let both = [&enforced[..], &watched];
    assert_eq!(answers([(1, 1), (2, 1)], both), possible);
    assert_eq!(answers([(1, 0), (3, 200)], both), possible); // a fulfilled place's row is not read
    assert_eq!(answers([(1, 2), (2, 1)], both), impossible); // a row that the table has not
    assert_eq!(answers([(1, 1), (2, 2)], both), impossible);
    assert_eq!(answers([(2, 0), (2, 0)], both), impossible); // another type
    assert_eq!(answers([(3, 0), (2, 0)], both), impossible);
    assert_eq!(answers([(1, 0), (1, 0)], both), impossible);
    assert_eq!(answers([(1, 0), (4, 0)], both), impossible); // no case
    assert_eq!(answers([(1, 0), (255, 0)], both), impossible);
    assert_eq!(answers([(1, 0), (2, 0)], [&enforced, &[2, 0, 3, 0, 1, 0, 8, 0, 0, 0, 0]]), impossible); // another A
    assert_eq!(answers([(1, 0), (2, 0)], [&enforced, &[2, 0, 4, 0, 1, 0, 8, 0, 0, 1, 0, 0]]), impossible); // fails 10
    assert_eq!(answers([(1, 0), (3, 0)], [&enforced, &[2, 0, 4, 0, 0, 0, 8, 0]]), impossible);
    assert_eq!(answers([(1, 0), (2, 1)], [&enforced, &[2, 0, 4, 0, 2, 0, 8, 0, 0, 0, 0, 0, 1, 1, 1, 1]]), possible); // fails 11
    assert_eq!(answers([(0, 9), (2, 1)], [&[9; 20], &watched]), [Some(10), Some(21), Some(12)]);
    // empty: not read
}

/// Every answer to an action by reading the permitted actions anew from row 0.
#[test]
fn histories() {
    let rules = [
        table(always(holds(but(prop(0))))),
        small_roastery_table("Whenever charge: Before+ drop"),
        table(eventually(now(prop(1)))),
        table(count(3)),
        table(after_enforced(eventually(now(prop(1))), holds(prop(3)))),
    ];
    let trips = |table: &[u8], trace: &[usize]| {
        let entry = |row: u8, action: &usize| Some(table[8 + row as usize * 4 + action]).filter(|&entry| entry != 255);
        trace.iter().try_fold(0, entry).is_none()
    };
    let mut random = Random(4);
    let mut seen = [0; 3];
    for _ in 0..500 {
        let (mut record, mut area) = lent();
        let mut board = Board::new(&mut record, &mut area).unwrap();
        let mut on: [Option<(&Vec<u8>, Vec<usize>)>; 8] = Default::default();
        for _ in 0..60 {
            let place = random.below(8);
            let rule = &rules[random.below(rules.len())];
            match random.below(8) {
                0 => {
                    let free = on[place].is_none();
                    assert_eq!(board.put_on(place, rule), if free { Ok(()) } else { Err(22) });
                    on[place].get_or_insert((rule, vec![]));
                }
                1 => {
                    let taken = on[place].take().is_some();
                    assert_eq!(board.take_off(place), if taken { Ok(()) } else { Err(21) });
                }
                _ => {
                    let action = random.below(4);
                    let after = |trace: &[usize]| [trace, &[action]].concat();
                    let tripped = |place: &Option<(&Vec<u8>, Vec<usize>)>, kind: u8| match place {
                        Some((table, trace)) => table[0] == kind && !trips(table, trace) && trips(table, &after(trace)),
                        None => false,
                    };
                    let expected = if on.iter().all(Option::is_none) {
                        Err(24)
                    } else if let Some(place) = on.iter().position(|place| tripped(place, 1)) {
                        seen[0] += 1;
                        Ok(Denied(place as u8))
                    } else {
                        let set = (0..8).filter(|&place| tripped(&on[place], 2)).fold(0, |set, place| set | 1 << place);
                        seen[1 + (set != 0) as usize] += 1;
                        on.iter_mut().flatten().for_each(|(_, trace)| trace.push(action));
                        Ok(Permitted(set))
                    };
                    assert_eq!(board.action(action), expected);
                }
            }
        }
    }
    assert!(seen.iter().all(|&answers| answers > 500), "{seen:?}");
}
