//! bully-example: prints an example run of three cabinets by the proved library's Bully machine (T-07).

use peer::bully::example::example;
use peer::proved::Proved;

fn main() {
    print!("{}", example(&Proved));
}
