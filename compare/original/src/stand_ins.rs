//! Stand-ins for the parts of lrpar and regex-syntax that the original's files use and that are not among them.

use crate::Span;
use num_traits::{AsPrimitive, PrimInt, Unsigned};
use std::fmt::Debug;
use std::hash::Hash;

/// lrpar's trait, with its bounds.
pub trait LexerTypes: Debug
where
    usize: AsPrimitive<Self::StorageT>,
{
    type LexemeT: Lexeme<Self::StorageT>;
    type StorageT: 'static + Debug + Hash + PrimInt + Unsigned;
    type LexErrorT: LexError;
}

pub trait Lexeme<StorageT> {
    fn new(tok_id: StorageT, start: usize, len: usize) -> Self
    where
        Self: Sized;
    fn new_faulty(tok_id: StorageT, start: usize, len: usize) -> Self
    where
        Self: Sized;
    fn tok_id(&self) -> StorageT;
    fn span(&self) -> Span;
    fn faulty(&self) -> bool;
}

pub trait LexError {
    fn span(&self) -> Span;
}

/// As 01 lists it.
pub fn is_meta_character(character: char) -> bool {
    r"\.+*?()|[]{}^$#&-~".contains(character)
}
