//! Search queries: reading them, and their truth on a tag list.

use crate::kind::Kind;
use crate::raw::{self, Item};
use crate::refusal::Refusal;
use crate::values::Values;

/// How deep a query may be: a leaf has depth 1, an operator one more than its deeper side.
pub const QUERY_DEPTH: usize = 24;

/// The operators of queries.
#[derive(Clone, Copy, Debug, PartialEq, Eq, Hash)]
#[repr(u8)]
pub enum Operator {
    /// 00: both sides hold.
    And = 0,
    /// 01: one side holds, or both.
    Or = 1,
    /// 02: the left side holds and the right one does not.
    AndNot = 2,
}

/// The bounds of limits.
#[derive(Clone, Copy, Debug, PartialEq, Eq, Hash)]
#[repr(u8)]
pub enum Bound {
    /// 01: the tag's number is at least the limit.
    Min = 1,
    /// 02: the tag's number is at most the limit.
    Max = 2,
}

/// A query in lent bytes that were read and accepted. [`Query::nodes`] walks through it.
///
/// ```
/// use ed2k::{Node, Operator};
///
/// let bytes = [0x00, 0x00, 0x01, 1, 0, b'a', 0x01, 1, 0, b'b'];
/// let query = ed2k::read_query(&bytes)?;
/// assert_eq!(query.depth(), 2);
/// let walk: Vec<_> = query.nodes().map(|step| (step.level, step.node)).collect();
/// assert_eq!(
///     walk,
///     [(1, Node::Operator(Operator::And)), (2, Node::Keyword(b"a")), (2, Node::Keyword(b"b"))]
/// );
/// # Ok::<(), ed2k::Refusal>(())
/// ```
#[derive(Clone, Copy, Debug)]
pub struct Query<'a> {
    bytes: &'a [u8],
    at: usize,
    end: usize,
    depth: usize,
}

impl<'a> Query<'a> {
    pub(crate) fn from_values(values: &mut Values<'a>) -> Query<'a> {
        Query { bytes: values.bytes(), at: values.offset(), end: values.offset(), depth: values.count() }
    }

    /// How deep it is, 1 to [`QUERY_DEPTH`].
    pub fn depth(&self) -> usize {
        self.depth
    }

    /// Its bytes: what [`read_query`] and [`truth`] take.
    pub fn encoded(&self) -> &'a [u8] {
        &self.bytes[self.at..self.end]
    }

    /// Its nodes in the order in which they are written: an operator, then all of its left side, then all of its right side.
    pub fn nodes(&self) -> Nodes<'a> {
        Nodes { bytes: self.bytes, at: self.at, pending: vec![1] }
    }
}

/// A node of a query.
#[derive(Clone, Copy, Debug, PartialEq, Eq)]
pub enum Node<'a> {
    /// 00: the two queries that follow, joined.
    Operator(Operator),
    /// 01: the text occurs in a String tag named 01, the file's name.
    Keyword(&'a [u8]),
    /// 02: a String tag of this name equals the text.
    Field {
        /// The text.
        text: &'a [u8],
        /// The tag's name.
        name: &'a [u8],
    },
    /// 03: a DWORD tag of this name keeps the limit.
    Limit {
        /// The limit.
        number: u32,
        /// Whether it is the least or the greatest.
        bound: Bound,
        /// The tag's name.
        name: &'a [u8],
    },
}

/// A node on the way through a query.
#[derive(Clone, Copy, Debug, PartialEq, Eq)]
pub struct Step<'a> {
    /// How far down the node stands; the first has level 1.
    pub level: usize,
    /// How many bytes the node has, without its sides.
    pub byte_count: usize,
    /// The node.
    pub node: Node<'a>,
}

/// A walk through a query.
#[derive(Clone, Debug)]
pub struct Nodes<'a> {
    bytes: &'a [u8],
    at: usize,
    /// The levels of the queries that are still to come, the next one last.
    pending: Vec<usize>,
}

impl<'a> Iterator for Nodes<'a> {
    type Item = Step<'a>;

    fn next(&mut self) -> Option<Step<'a>> {
        let level = self.pending.pop()?;
        let read = Values::of(Item::QueryNode, self.bytes, self.at);
        let (values, next) = read.expect("a node of an accepted query is accepted");
        let node = node(values);
        if let Node::Operator(_) = node {
            self.pending.extend([level + 1, level + 1]);
        }
        let byte_count = next - self.at;
        self.at = next;
        Some(Step { level, byte_count, node })
    }
}

fn node(mut values: Values<'_>) -> Node<'_> {
    let case = values.byte();
    let operator = values.byte();
    let text = values.text();
    let number = values.dword();
    let bound = values.byte();
    let name = values.text();
    match case {
        0 => Node::Operator(operator_of(operator)),
        1 => Node::Keyword(text),
        2 => Node::Field { text, name },
        _ => Node::Limit { number, bound: if bound == 1 { Bound::Min } else { Bound::Max }, name },
    }
}

fn operator_of(byte: u8) -> Operator {
    match byte {
        0 => Operator::And,
        1 => Operator::Or,
        _ => Operator::AndNot,
    }
}

/// Reads a lone query.
pub fn read_query(bytes: &[u8]) -> Result<Query<'_>, Refusal> {
    Values::read(Kind::Query, bytes).map(|mut values| Query::from_values(&mut values))
}

/// Whether a lone query holds on a lone tag list. The query's refusals come before the list's. It
/// costs at most the leaves of the query times the bytes of the list.
///
/// ```
/// use ed2k::write::{self, TagList};
///
/// let tags = TagList::new().text(&[0x01], b"left last.stl")?.finish()?;
/// assert!(ed2k::truth(&write::keyword(b"last")?, &tags)?);
/// assert!(!ed2k::truth(&write::keyword(b"heel")?, &tags)?);
/// # Ok::<(), ed2k::Refusal>(())
/// ```
pub fn truth(query: &[u8], tags: &[u8]) -> Result<bool, Refusal> {
    raw::truth(query, tags).map(|truth| truth == 1)
}
