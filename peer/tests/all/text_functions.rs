//! A library whose functions for the texts of T-13, T-12 and T-01 are those that are given; where none is, this program's
//! own.

use peer::proved::{Own, Texts};

type Whole<'a> = Box<dyn Fn(&[u8], &mut [u8]) -> Option<usize> + 'a>;
type Window<'a> = Box<dyn Fn(&[u8], u64, &mut [u8]) -> usize + 'a>;

pub struct TextFunctions<'a> {
    pub rest: Whole<'a>,
    pub aldebaran: Whole<'a>,
    pub short_lists: Window<'a>,
}

impl Default for TextFunctions<'_> {
    fn default() -> Self {
        TextFunctions {
            rest: Box::new(|list, out| Own.rest(list, out)),
            aldebaran: Box::new(|input, out| Own.aldebaran(input, out)),
            short_lists: Box::new(|input, from, out| Own.short_lists(input, from, out)),
        }
    }
}

impl Texts for TextFunctions<'_> {
    fn rest(&self, list: &[u8], out: &mut [u8]) -> Option<usize> {
        (self.rest)(list, out)
    }
    fn aldebaran(&self, input: &[u8], out: &mut [u8]) -> Option<usize> {
        (self.aldebaran)(input, out)
    }
    fn short_lists(&self, input: &[u8], from: u64, out: &mut [u8]) -> usize {
        (self.short_lists)(input, from, out)
    }
}
