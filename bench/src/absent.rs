//! In the place of Hyperscan where it is not installed: a matcher of which there is none.

use crate::matcher::{Matcher, Reports};
use crate::rules::Rule;

pub const THERE: bool = false;

pub enum Hyperscan {}

pub fn compile(_: &[Rule]) -> Option<Hyperscan> {
    None
}

impl Matcher for Hyperscan {
    type Stream = ();

    fn open(&mut self) {
        match *self {}
    }

    fn scan(&mut self, _: &mut (), _: &[u8], _: &mut Reports) {
        match *self {}
    }

    fn close(&mut self, _: (), _: &mut Reports) {
        match *self {}
    }

    fn sizes(&self) -> (usize, usize) {
        match *self {}
    }
}
