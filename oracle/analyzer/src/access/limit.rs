//! Document 01's limit on trees (refusal 8), which the Rust doesn't have: a
//! tree formed on the way with more than 2,048 nodes ends the work. With the
//! feature `limited` the copy of resolver.rs calls this (limit_calls.rs).
//!
//! Where the limit is met a function gives `None`, which its callers pass on as
//! they do for a value that can't be resolved. A mark tells the two apart.

use std::cell::{Cell, RefCell};
use std::collections::HashSet;

use ironplc_dsl::type_id::TypeId;

use super::super::{Field, Value};

/// The most nodes of a tree.
const MOST_NODES: usize = 2048;

thread_local! {
    /// Whether the question in progress met the limit.
    static IS_MET: Cell<bool> = const { Cell::new(false) };
    /// The types whose default is remembered as too large.
    static TYPES: RefCell<HashSet<TypeId>> = RefCell::default();
}

/// Begins a question, or a declared type that is resolved ahead of them.
pub(crate) fn start() {
    IS_MET.set(false);
}

/// Whether the question met the limit.
pub(crate) fn is_met() -> bool {
    IS_MET.get()
}

/// Forgets the types of the file before.
pub(crate) fn forget_types() {
    TYPES.with_borrow_mut(HashSet::clear);
}

/// Begins a question with a fresh resolver, which remembers only the types that
/// `is_known` takes.
pub(crate) fn renew(is_known: impl Fn(&TypeId) -> bool) {
    start();
    TYPES.with_borrow_mut(|types| types.retain(is_known));
}

/// `None` if the work has ended, for a caller that doesn't pass `None` on.
pub(crate) fn not_met() -> Option<()> {
    (!is_met()).then_some(())
}

/// Remembers as too large the type `id`, which is in progress no longer, if the
/// limit was met meanwhile.
pub(crate) fn resolved(id: TypeId) {
    if is_met() {
        TYPES.with_borrow_mut(|types| types.insert(id));
    }
}

/// Meets the limit if the type `id` is remembered as too large.
pub(crate) fn known(id: TypeId) -> Option<()> {
    match TYPES.with_borrow(|types| types.contains(&id)) {
        true => meet(),
        false => Some(()),
    }
}

/// Counts a structure of the `fields` gathered so far.
pub(crate) fn structure(fields: &[Field]) -> Option<()> {
    within(1 + nodes_of_fields(fields))
}

/// Counts an array of the `values` gathered so far.
pub(crate) fn array(values: &[Value]) -> Option<()> {
    within(1 + nodes_of_values(values))
}

/// Counts an array of `default`, `count` times over, before the copies are made.
pub(crate) fn defaults(default: &[Value], count: usize) -> Option<()> {
    within(1 + nodes_of_values(default) * count)
}

fn within(nodes: usize) -> Option<()> {
    match nodes <= MOST_NODES {
        true => Some(()),
        false => meet(),
    }
}

fn meet() -> Option<()> {
    IS_MET.set(true);
    None
}

fn nodes_of_values(values: &[Value]) -> usize {
    values.iter().map(nodes).sum()
}

fn nodes_of_fields(fields: &[Field]) -> usize {
    fields.iter().map(|field| nodes(&field.value)).sum()
}

fn nodes(value: &Value) -> usize {
    match value {
        Value::Array(values) => 1 + nodes_of_values(values),
        Value::Structure(fields) => 1 + nodes_of_fields(fields),
        Value::Constant(_)
        | Value::Enumerated(_)
        | Value::Reference(_)
        | Value::Expression(_) => 1,
    }
}
