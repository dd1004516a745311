//! Queries in words.

use std::io;

use ed2k::{Bound, Node, Operator, Query};

use super::sheet::Sheet;
use super::tags;
use crate::text;

/// A query: how deep it is, then its nodes, each side of an operator below it.
pub fn show(sheet: &mut Sheet<'_>, query: &Query<'_>) -> io::Result<()> {
    head(sheet, Some(query.depth()))?;
    for step in query.nodes() {
        sheet.below(step.level, |sheet| node(sheet, step.byte_count, &step.node))?;
    }
    Ok(())
}

/// The depth of a query is known if it is whole.
pub fn head(sheet: &mut Sheet<'_>, depth: Option<usize>) -> io::Result<()> {
    match depth {
        Some(depth) => sheet.head(&format!("Search query of depth {depth}")),
        None => sheet.head("Search query"),
    }
}

/// A node of so many bytes, without its sides.
pub fn node(sheet: &mut Sheet<'_>, byte_count: usize, node: &Node<'_>) -> io::Result<()> {
    sheet.phrase(byte_count, &phrase(node))
}

fn phrase(node: &Node<'_>) -> String {
    match node {
        Node::Operator(Operator::And) => "and: both of".into(),
        Node::Operator(Operator::Or) => "or: one of".into(),
        Node::Operator(Operator::AndNot) => "and not: the first, but not the second, of".into(),
        Node::Keyword(text) => format!("name contains {}", text::quoted(text)),
        Node::Field { text, name } => format!("{} is {}", tags::name(name), text::quoted(text)),
        Node::Limit { number, bound, name } => {
            format!("{} is {} {}", tags::name(name), bound_words(*bound), tags::dword(name, *number))
        }
    }
}

pub fn bound_words(bound: Bound) -> &'static str {
    match bound {
        Bound::Min => "at least",
        Bound::Max => "at most",
    }
}
