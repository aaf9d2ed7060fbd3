//! Libraries whose step or text is wrong on purpose, for the tests of the fuzzer and of the comparison.

use crate::finds::found_in;
use crate::functions::Functions;
use peer::fuzzing::Fuzz;
use peer::machine::{Event, Table};
use peer::proved::{step_by, write_fitting, Library};

/// A library whose step is by another machine, which is given any table.
pub fn steps<'a>(machine: impl Fn(&mut Table, &Event) -> Result<(), u8> + 'a) -> Functions<'a> {
    let step =
        move |table: &[u8], field: &[u8], out: &mut [u8]| step_by(&machine, table, field, out);
    Functions { step: Box::new(step), ..Functions::default() }
}

/// A library whose text is by another program, which is given any list.
pub fn texts<'a>(program: impl Fn(&[u8]) -> String + 'a) -> Functions<'a> {
    let print = move |list: &[u8], out: &mut [u8]| write_fitting(program(list).as_bytes(), out);
    Functions { print: Box::new(print), ..Functions::default() }
}

/// How many differences the fuzzer finds, at most five.
pub fn found(library: impl Library) -> u64 {
    found_in(Fuzz::new(library, 1), 60)
}
