//! The clause that the original takes from its module of this name.

/// A clause: variables, each with true where it is positive. It is met when one of them is met.
#[derive(Clone, Debug, Eq, PartialEq)]
pub struct CnfClause(pub Vec<(usize, bool)>);
