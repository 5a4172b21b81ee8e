//! The reader of scenes beside the host's plain one, and the test of lent tables beside the plain test.

mod capacity;
pub mod damage;
mod limits;
mod marked;
mod random;
pub mod readings;
pub mod tables;

use crate::prng::Prng;
use crate::report::Report;
use readings::Readings;

pub fn run(report: &mut Report) {
    let prng = Prng::new(3);
    let mut readings = Readings { report, prng };
    marked::run(&mut readings);
    capacity::run(&mut readings);
    limits::run(&mut readings);
    damage::run(&mut readings);
    tables::run(&mut readings);
    report.expect_answers("read_scene", &[0, 1, 2, 3, 4, 6]);
    report.expect_answers("table_valid", &[0, 1]);
}
