//! The rule that each refusal guards, in the words of a person at the bench.

use fairleadow::Refusal;

/// The rules of refusals 1 to 28, in that order.
const RULES: [&str; 28] = [
    "a chart has 1 to 256 nodes, each a line of 22 digits and a line feed; an image has at most 1,297 such lines",
    "a line is 22 digits, 0-9 and A-F or a-f, and a line feed",
    "the eleven bytes of a line sum to 0 modulo 256; the last byte is there for that",
    "each field of a node has one of its values, and a byte that its kind has no use for is 00",
    "each scheme from 1 to the highest one used has one Begin and one End",
    "an arc leads to a node of its own scheme, and never to a Begin",
    "only schemes from 2 to the highest one can be called, and a function calls one",
    "no circle has conditions only, for the machine could go round it and never tick",
    "arcs join each node to the Begin of its scheme",
    "a chart has at most 1,024 rows: the paths from its stops through conditions to the next stops",
    "the first line of an image is 0F, the schemes, the highest label, the rows, the handler and 00, and as many lines follow",
    "after its first line an image has the entries, the labels and the rows, each in the order of their numbers",
    "each field of an image line has one of its values, and a byte without a use is 00",
    "a stack has 1 to 32 places",
    "a state belongs to the image that it is run with",
    "a buffer has room for the whole answer",
    "a call needs a free place of the stack, or a handler that is not at the bottom of it",
    "a label has a row for each word that it meets",
    "one scheme at most is the handler, which is performed when the stack is full, and that is not scheme 1",
    "the places that a chart needs can be told where no scheme that scheme 1 leads to calls itself, directly or through others",
    "what made a tick go where it went is told by the row that it takes: plain ticks take one, and returns to a scheme beneath",
    "a number of 2 to the highest scheme can be given to another of these schemes to serve, but not the handler's number",
    "labels can be joined where each word, with each result of the scheme called, matches one row of each label and no more",
    "little charts have 2, 3 or 4 frames, and are numbered from 0 up to 1, 17 and 647",
    "spindles are numbered from 0 to 3",
    "the four spindles have 64 places together, and a call takes one",
    "a run that is priced has at most 65,536 words",
    "lists of words are counted where ticks times conditions are at most 16, conditions at most 16 and ticks at most 65,536",
];

/// The rule of a refusal.
pub fn rule(refusal: Refusal) -> &'static str {
    RULES[usize::from(refusal.number()).clamp(1, RULES.len()) - 1]
}
