//! A library with a function a field, for libraries that are wrong on purpose: the others are this program's
//! own.

use peer::proved::{Library, Own};

type Print<'a> = Box<dyn Fn(&[u8], &mut [u8]) -> Option<usize> + 'a>;
type Step<'a> = Box<dyn Fn(&[u8], &[u8], &mut [u8]) -> u8 + 'a>;
type Fold<'a> = Box<dyn Fn(&[u8]) -> u32 + 'a>;
type Recovery<'a> = Box<dyn Fn(&[u8], u8, &mut [u8]) -> u8 + 'a>;
type Turn<'a> = Box<dyn Fn(&[u8], u8, u8, &mut [u8]) -> u8 + 'a>;
type ListOfText<'a> = Box<dyn Fn(&[u8], &mut [u8]) -> Option<Result<usize, usize>> + 'a>;
type Controller<'a> = Box<dyn Fn(u8, u8, &[u8], &[u8], &mut [u8]) -> u8 + 'a>;

/// What each takes and gives is said in `Library`.
pub struct Functions<'a> {
    pub print: Print<'a>,
    pub step: Step<'a>,
    pub fold: Fold<'a>,
    pub recovery: Recovery<'a>,
    pub bully_step: Step<'a>,
    pub turn: Turn<'a>,
    pub controller_event: Controller<'a>,
    pub controller_message: Controller<'a>,
    pub text_of_list: Print<'a>,
    pub list_of_text: ListOfText<'a>,
    pub trace: Print<'a>,
}

impl Default for Functions<'_> {
    fn default() -> Self {
        Functions {
            print: Box::new(|list, out| Own.print(list, out)),
            step: Box::new(|table, field, out| Own.step(table, field, out)),
            fold: Box::new(|list| Own.fold(list)),
            recovery: Box::new(|table, node, out| Own.recovery(table, node, out)),
            bully_step: Box::new(|table, field, out| Own.bully_step(table, field, out)),
            turn: Box::new(|table, a, b, out| Own.turn(table, a, b, out)),
            controller_event: Box::new(|n, own, record, field, out| {
                Own.controller_event(n, own, record, field, out)
            }),
            controller_message: Box::new(|n, own, record, message, out| {
                Own.controller_message(n, own, record, message, out)
            }),
            text_of_list: Box::new(|list, out| Own.text_of_list(list, out)),
            list_of_text: Box::new(|text, out| Own.list_of_text(text, out)),
            trace: Box::new(|list, out| Own.trace(list, out)),
        }
    }
}

impl Library for Functions<'_> {
    fn print(&self, list: &[u8], out: &mut [u8]) -> Option<usize> {
        (self.print)(list, out)
    }
    fn step(&self, table: &[u8], field: &[u8], out: &mut [u8]) -> u8 {
        (self.step)(table, field, out)
    }
    fn fold(&self, list: &[u8]) -> u32 {
        (self.fold)(list)
    }
    fn recovery(&self, table: &[u8], node: u8, out: &mut [u8]) -> u8 {
        (self.recovery)(table, node, out)
    }
    fn bully_step(&self, table: &[u8], field: &[u8], out: &mut [u8]) -> u8 {
        (self.bully_step)(table, field, out)
    }
    fn turn(&self, table: &[u8], a: u8, b: u8, out: &mut [u8]) -> u8 {
        (self.turn)(table, a, b, out)
    }
    fn controller_event(&self, n: u8, own: u8, record: &[u8], field: &[u8], out: &mut [u8]) -> u8 {
        (self.controller_event)(n, own, record, field, out)
    }
    fn controller_message(
        &self,
        n: u8,
        own: u8,
        record: &[u8],
        message: &[u8],
        out: &mut [u8],
    ) -> u8 {
        (self.controller_message)(n, own, record, message, out)
    }
    fn text_of_list(&self, list: &[u8], out: &mut [u8]) -> Option<usize> {
        (self.text_of_list)(list, out)
    }
    fn list_of_text(&self, text: &[u8], out: &mut [u8]) -> Option<Result<usize, usize>> {
        (self.list_of_text)(text, out)
    }
    fn trace(&self, list: &[u8], out: &mut [u8]) -> Option<usize> {
        (self.trace)(list, out)
    }
}
