/// Appended by the build: the private functions of this file, for the comparison.
pub mod access {
    /// The number reader of the transition reader.
    pub fn parse_usize(token: &str) -> Option<usize> {
        super::parse_usize(Some(token), "number").ok()
    }
}
