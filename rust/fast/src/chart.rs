//! Refusals 4 to 9 on records, with 19 after 5.

use super::NODES;
use reference::answer::Refusal;
use reference::frames::Frame;

pub const BEGIN: u8 = 0;
pub const END: u8 = 1;
pub const OPERATION: u8 = 2;
pub const CONDITION: u8 = 3;
pub const FUNCTION: u8 = 4;

/// How many schemes there are, the Begin of each, and the scheme whose Begin is marked, 0 for none.
pub struct Begins {
    pub schemes: u8,
    pub begin: [u8; 17],
    pub handler: u8,
}

pub fn check(records: &[Frame]) -> Result<Begins, Refusal> {
    if let Some(index) = records.iter().position(|r| !fields_stand(r)) {
        return Err(Refusal::BadField(index));
    }
    let begins = begins(records)?;
    if let Some(index) = records.iter().position(|r| bad_arc(records, r)) {
        return Err(Refusal::BadArc(index));
    }
    if let Some(index) = records.iter().position(|r| bad_call(r, begins.schemes)) {
        return Err(Refusal::BadCall(index));
    }
    if let Some(index) = lowest_on_circle(records) {
        return Err(Refusal::Circle(index));
    }
    match lowest_cut_off(records, &begins) {
        Some(index) => Err(Refusal::CutOff(index)),
        None => Ok(begins),
    }
}

fn fields_stand(r: &Frame) -> bool {
    let scheme = (1..=16).contains(&r[1]);
    let tail = r[6] | r[7] | r[8] | r[9];
    scheme
        && match r[0] {
            BEGIN => r[2] <= 1 && r[4] | r[5] | tail == 0,
            END => r[2] | r[3] | r[4] | r[5] | tail == 0,
            OPERATION => r[4] == 0 && r[5] <= 2,
            CONDITION => r[2] <= 15 && r[5] | tail == 0,
            FUNCTION => r[5] | tail == 0,
            _ => false,
        }
}

fn begins(records: &[Frame]) -> Result<Begins, Refusal> {
    let mut begin = [0; 17];
    let (mut starts, mut ends) = ([0u16; 17], [0u16; 17]);
    let (mut schemes, mut marks, mut handler) = (0, 0u16, 0);
    for (at, r) in records.iter().enumerate() {
        let scheme = usize::from(r[1]);
        schemes = schemes.max(scheme);
        match r[0] {
            BEGIN => {
                starts[scheme] += 1;
                begin[scheme] = at as u8;
                if r[2] == 1 {
                    marks += 1;
                    handler = r[1];
                }
            }
            END => ends[scheme] += 1,
            _ => {}
        }
    }
    let alone = |count: &u16| *count == 1;
    if !starts[1..=schemes].iter().all(alone) || !ends[1..=schemes].iter().all(alone) {
        return Err(Refusal::BadScheme);
    }
    if marks > 1 || handler == 1 {
        return Err(Refusal::BadMarks);
    }
    Ok(Begins { schemes: schemes as u8, begin, handler })
}

/// The ends of a record's arcs.
fn arcs(r: &Frame) -> &[u8] {
    match r[0] {
        END => &[],
        BEGIN | OPERATION => &r[3..4],
        _ => &r[3..5],
    }
}

fn bad_arc(records: &[Frame], r: &Frame) -> bool {
    arcs(r).iter().any(|to| match records.get(usize::from(*to)) {
        Some(target) => target[1] != r[1] || target[0] == BEGIN,
        None => true,
    })
}

fn bad_call(r: &Frame, schemes: u8) -> bool {
    let callable = 2 <= r[2] && r[2] <= schemes;
    match r[0] {
        OPERATION => r[2] != 0 && !callable,
        FUNCTION => !callable,
        _ => false,
    }
}

/// Depth first over conditions alone: without a way back into the path in hand there is no circle. Only where there
/// is one, each condition is asked whether it comes back to itself.
fn lowest_on_circle(records: &[Frame]) -> Option<usize> {
    const NEW: u8 = 0;
    const ON_PATH: u8 = 1;
    const DONE: u8 = 2;
    let mut mark = [NEW; NODES];
    let mut path = [(0u8, 0u8); NODES];
    for root in 0..records.len() {
        if records[root][0] != CONDITION || mark[root] != NEW {
            continue;
        }
        mark[root] = ON_PATH;
        path[0] = (root as u8, 3);
        let mut depth = 1;
        while depth > 0 {
            let (at, slot) = path[depth - 1];
            if slot == 5 {
                mark[usize::from(at)] = DONE;
                depth -= 1;
                continue;
            }
            path[depth - 1].1 = slot + 1;
            let to = records[usize::from(at)][usize::from(slot)];
            if records[usize::from(to)][0] != CONDITION {
                continue;
            }
            match mark[usize::from(to)] {
                NEW => {
                    mark[usize::from(to)] = ON_PATH;
                    path[depth] = (to, 3);
                    depth += 1;
                }
                ON_PATH => return (0..records.len()).find(|v| comes_back(records, *v)),
                _ => {}
            }
        }
    }
    None
}

fn comes_back(records: &[Frame], at: usize) -> bool {
    if records[at][0] != CONDITION {
        return false;
    }
    let mut seen = [false; NODES];
    let mut open = [0; 2 * NODES];
    open[..2].copy_from_slice(&records[at][3..5]);
    let mut count = 2;
    while count > 0 {
        count -= 1;
        let next = usize::from(open[count]);
        if next == at {
            return true;
        }
        if !seen[next] && records[next][0] == CONDITION {
            seen[next] = true;
            open[count..count + 2].copy_from_slice(&records[next][3..5]);
            count += 2;
        }
    }
    false
}

fn lowest_cut_off(records: &[Frame], begins: &Begins) -> Option<usize> {
    let mut joined = [false; NODES];
    let mut open = [0u8; NODES];
    let mut count = 0;
    for begin in &begins.begin[1..=usize::from(begins.schemes)] {
        joined[usize::from(*begin)] = true;
        open[count] = *begin;
        count += 1;
    }
    while count > 0 {
        count -= 1;
        for to in arcs(&records[usize::from(open[count])]) {
            if !joined[usize::from(*to)] {
                joined[usize::from(*to)] = true;
                open[count] = *to;
                count += 1;
            }
        }
    }
    joined[..records.len()].iter().position(|j| !j)
}
