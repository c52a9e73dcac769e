//! The calls that notice damage: the check of a table, and its sum.

use proved::{c, Library, TABLE};
use reference::Reference;

use super::stack::depth;
use super::{worst_tables, MEMORY};

struct Checked {
    table: Vec<u8>,
    number: u8,
    sum: u32,
}

extern "C" fn check_table(job: &mut Checked) {
    let (mut index, mut count) = (0, 0);
    // SAFETY: all that the call is handed lives here and is lent to it alone.
    job.number = unsafe {
        c::fairleadow_check_table(job.table.as_ptr(), job.table.len() as u64, &mut index, &mut count)
    } as u8;
}

extern "C" fn sum(job: &mut Checked) {
    // SAFETY: all that the call is handed lives here and is lent to it alone.
    job.sum = unsafe { c::fairleadow_sum(0, job.table.as_ptr(), job.table.len() as u64) };
}

/// Each table as it was prepared, and with its last row leading nowhere.
#[test]
fn a_check_and_a_sum_fit_beside_a_table() {
    let (mut deepest, mut answered) = ([0; 2], [0; 2]);
    for table in worst_tables() {
        let mut damaged = table.clone();
        let next = damaged.len() - 3;
        damaged[next] ^= 0xFF;
        for table in [table, damaged] {
            let mut job = Checked { table, number: 0, sum: 0 };
            deepest[0] = deepest[0].max(depth(&mut job, check_table));
            assert!(matches!(job.number, 0 | 13));
            answered[usize::from(job.number == 13)] += 1;
            deepest[1] = deepest[1].max(depth(&mut job, sum));
            assert_eq!(job.sum, Reference.sum(0, &job.table));
        }
    }
    let [check, sum] = deepest;
    println!("check of a table: {check} bytes of stack, sum: {sum}");
    assert!(answered.iter().all(|answers| *answers > 0), "{answered:?}");
    assert!(TABLE + check.max(sum) < MEMORY, "a check takes {check}, a sum {sum} bytes of stack");
}
