//! One random input: what is lent as a draft, and the steps on it.

use hurnavis_comparison::independent::draft::Step;

pub struct Input {
    pub family: &'static str,
    pub draft: Vec<u8>,
    pub steps: Vec<Step>,
}
