//! All that print a list: the peer, the tuned program and, where it is linked, the proved library.

use peer::print::run_list;
use peer::proved::{Library, Proved};
use peer::tuned;

/// What gives the text of a list.
pub type Prints<'a> = &'a dyn Fn(&[u8]) -> String;

/// The text of a list by a function that prints into a lent buffer.
fn into_buffer(print: impl Fn(&[u8], &mut [u8]) -> Option<usize>, list: &[u8]) -> String {
    let mut out = vec![0; 4000];
    let length = print(list, &mut out).unwrap();
    out.truncate(length);
    String::from_utf8(out).unwrap()
}

/// The test on each that prints.
pub fn by_all(test: fn(Prints)) {
    test(&|list| String::from_utf8(run_list(list)).unwrap());
    test(&|list| into_buffer(tuned::print, list));
    if let Ok(library) = Proved::linked() {
        test(&|list| into_buffer(|list, out| library.print(list, out), list));
    }
}
