//! The action written by hand in C (by_hand.c), plain and with SSE2, and the check that both answer as the library does.

use crate::library;
use reference::board::{AREA, PLACES, RECORD};
use reference::table::{HEADER, LARGEST};

extern "C" {
    fn by_hand_action(record: *mut u8, record_length: usize, area: *const u8, area_length: usize, action: usize)
        -> u64;
    fn by_hand_action_with_sse2(
        record: *mut u8,
        record_length: usize,
        area: *const u8,
        area_length: usize,
        action: usize,
    ) -> u64;
}

pub fn action(record: &mut [u8], area: &[u8], action: usize) -> u64 {
    unsafe { by_hand_action(record.as_mut_ptr(), record.len(), area.as_ptr(), area.len(), action) }
}

pub fn action_with_sse2(record: &mut [u8], area: &[u8], action: usize) -> u64 {
    unsafe { by_hand_action_with_sse2(record.as_mut_ptr(), record.len(), area.as_ptr(), area.len(), action) }
}

/// Bytes that are near a limit of a header, a record or an entry.
const BYTES: [u8; 14] = [0, 1, 2, 3, 4, 8, 15, 16, 17, 63, 64, 65, 254, 255];

/// Holds both to the library's answers and records: on the actions that are timed, on areas too short, on an
/// empty board, on an action too large, and on the board with each place's case and row, and each byte
/// of a table, damaged.
pub fn check(before: &[u8], area: &[u8], actions: &[usize]) {
    let mut record = before.to_vec();
    actions.iter().for_each(|&action| same(&mut record, area, action));
    same(&mut record, area, 16);
    same(&mut record, area, usize::MAX);
    same(&mut record, &area[..AREA - 1], actions[0]);
    same(&mut record[..RECORD - 1], area, actions[0]);
    same(&mut [0; RECORD], area, actions[0]);
    for place in 0..PLACES {
        for (case, row) in BYTES.iter().flat_map(|&case| BYTES.map(|row| (case, row))) {
            let mut damaged = before.to_vec();
            damaged[2 * place..][..2].copy_from_slice(&[case, row]);
            same(&mut damaged, area, actions[place]);
        }
    }
    let mut damaged = area.to_vec();
    for place in (0..PLACES).filter(|&place| before[2 * place] != 0) {
        let table = &area[LARGEST * place..][..LARGEST];
        let length = HEADER + table[2] as usize * table[4] as usize;
        for offset in (LARGEST * place..LARGEST * (place + 1)).take(length + 1) {
            for byte in BYTES {
                damaged[offset] = byte;
                same(&mut before.to_vec(), &damaged, actions[offset % actions.len()]);
            }
            damaged[offset] = area[offset];
        }
    }
}

/// One call of all three on equal boards. Leaves the record as the library leaves it.
fn same(record: &mut [u8], area: &[u8], number: usize) {
    let (mut plain, mut sse2) = (record.to_vec(), record.to_vec());
    let answer = library::action(record, area, number);
    assert_eq!(action(&mut plain, area, number), answer, "by hand, library; action {number}, record {record:?}");
    assert_eq!(plain, record, "the records by hand and by the library; action {number}");
    let answer_with_sse2 = action_with_sse2(&mut sse2, area, number);
    assert_eq!(answer_with_sse2, answer, "with SSE2, library; action {number}, record {record:?}");
    assert_eq!(sse2, record, "the records with SSE2 and by the library; action {number}");
}
