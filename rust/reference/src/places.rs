//! How many places a chart's calls need, and refusal 20.

use std::collections::BTreeSet;

use crate::answer::{refuse_if, Refusal};
use crate::chart::{Chart, Kind};

/// The most schemes of a chain of calls from this scheme on, itself counted; refusal 20 where a chain comes back to one of its
/// own schemes.
pub fn longest_chain(chart: &Chart, from: u8) -> Result<usize, Refusal> {
    let calls: Vec<BTreeSet<u8>> = (0..=chart.schemes()).map(|scheme| called_by(chart, scheme)).collect();
    longest_after(&calls, &mut vec![from])
}

/// The schemes that any node of a scheme calls, whether words lead there or not.
fn called_by(chart: &Chart, scheme: u8) -> BTreeSet<u8> {
    let own = chart.nodes.iter().filter(|node| node.scheme == scheme);
    let calls = own.filter(|node| match node.kind {
        Kind::Operation => node.argument != 0,
        Kind::Function => true,
        _ => false,
    });
    calls.map(|node| node.argument).collect()
}

/// The most schemes of a chain that begins with this one.
fn longest_after(calls: &[BTreeSet<u8>], chain: &mut Vec<u8>) -> Result<usize, Refusal> {
    let mut longest = chain.len();
    let last = *chain.last().expect("a chain has a scheme");
    for called in &calls[usize::from(last)] {
        refuse_if(Refusal::CallsItself, chain.contains(called))?;
        chain.push(*called);
        longest = longest.max(longest_after(calls, chain)?);
        chain.pop();
    }
    Ok(longest)
}
