//! Which nodes and arcs the ticks of a trace took.

use std::collections::BTreeMap;

use super::{Arc, Happening, Tick};
use crate::chart::Node;
use crate::marking::called;
use crate::plan::Plan;

/// How often each node was taken, each call by the scheme that served it, each call that was dropped, and each arc by node and side. A
/// node is taken by its tick, or by an arc out of it where it takes no tick. A call that is dropped is not taken, though its node is.
#[derive(Clone, Debug)]
pub struct Coverage {
    nodes: Vec<usize>,
    calls: Vec<BTreeMap<u8, usize>>,
    drops: Vec<usize>,
    arcs: Vec<Vec<usize>>,
}

impl Coverage {
    /// Where nothing was taken yet.
    pub fn none(plan: &Plan) -> Coverage {
        Coverage {
            nodes: vec![0; plan.nodes.len()],
            calls: vec![BTreeMap::new(); plan.nodes.len()],
            drops: vec![0; plan.nodes.len()],
            arcs: plan.nodes.iter().map(|node| vec![0; node.arcs().len()]).collect(),
        }
    }

    pub(super) fn note(&mut self, tick: &Tick) {
        self.nodes[tick.node()] += 1;
        match tick.happening() {
            Happening::Call(_) => *self.calls[tick.node()].entry(tick.server).or_default() += 1,
            Happening::Drop => self.drops[tick.node()] += 1,
            _ => {}
        }
        for arc in &tick.arcs {
            self.arcs[arc.from][arc.side] += 1;
        }
    }

    /// With what another run of the same chart took.
    pub fn join(&mut self, other: &Coverage) {
        let add = |own: &mut [usize], others: &[usize]| {
            own.iter_mut().zip(others).for_each(|(own, other)| *own += other);
        };
        add(&mut self.nodes, &other.nodes);
        add(&mut self.drops, &other.drops);
        self.arcs.iter_mut().zip(&other.arcs).for_each(|(own, others)| add(own, others));
        for (own, others) in self.calls.iter_mut().zip(&other.calls) {
            others.iter().for_each(|(server, times)| *own.entry(*server).or_default() += times);
        }
    }

    /// How often a node was taken.
    pub fn times(&self, at: usize) -> usize {
        self.nodes[at].max(self.arcs[at].iter().sum())
    }

    pub fn node_taken(&self, at: usize) -> bool {
        self.times(at) > 0
    }

    /// Whether the call of a node was made and opened this scheme.
    pub fn call_taken(&self, at: usize, server: u8) -> bool {
        self.calls[at].contains_key(&server)
    }

    /// The schemes that served the call of a node, in the order of their numbers.
    pub fn servers(&self, at: usize) -> impl Iterator<Item = u8> + '_ {
        self.calls[at].keys().copied()
    }

    /// How often an arc was taken.
    pub fn arc_times(&self, arc: Arc) -> usize {
        self.arcs[arc.from][arc.side]
    }

    pub fn arc_taken(&self, arc: Arc) -> bool {
        self.arc_times(arc) > 0
    }

    /// How often the call of a node was dropped.
    pub fn drop_times(&self, at: usize) -> usize {
        self.drops[at]
    }

    /// The nodes that were never taken, in frame order.
    pub fn nodes_left(&self) -> Vec<usize> {
        (0..self.nodes.len()).filter(|at| !self.node_taken(*at)).collect()
    }

    /// The arcs that were never taken, in frame order.
    pub fn arcs_left(&self) -> Vec<Arc> {
        let sides = |from: usize| (0..self.arcs[from].len()).map(move |side| Arc { from, side });
        (0..self.arcs.len()).flat_map(sides).filter(|arc| !self.arc_taken(*arc)).collect()
    }

    /// The results of functions by which none went on, each as its arc.
    pub fn results_left(&self, plan: &Plan) -> Vec<Arc> {
        let is_function = |arc: &Arc| matches!(plan.nodes[arc.from], Node::Function { .. });
        self.arcs_left().into_iter().filter(is_function).collect()
    }

    /// The calls that were never dropped, by their nodes; none where nothing can be dropped.
    pub fn drops_left(&self, plan: &Plan) -> Vec<usize> {
        droppable(plan).filter(|at| self.drops[*at] == 0).collect()
    }
}

/// The nodes whose call is dropped where it finds the stack full: all that call, if the chart has a handler.
pub fn droppable(plan: &Plan) -> impl Iterator<Item = usize> + '_ {
    (0..plan.nodes.len()).filter(|at| plan.handler() != 0 && called(&plan.nodes[*at]) != 0)
}
