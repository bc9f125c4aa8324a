//! Plays a script from standard input to standard output.

use std::io;

use compare::model::{Machine, Right};
use compare::script;

fn main() -> io::Result<()> {
    script::play_standard(Right::step)
}
