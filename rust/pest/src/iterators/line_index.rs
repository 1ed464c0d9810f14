//! Stand-in: no line is ever asked for here, so none is indexed.

#[derive(Clone)]
pub struct LineIndex;

impl LineIndex {
    pub fn new(_text: &str) -> LineIndex {
        LineIndex
    }
}
