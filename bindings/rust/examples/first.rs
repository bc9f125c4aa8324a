//! A first bench: the scope paper's worked script, call by call, and then a load
//! that is refused.
//!
//! `cargo run --example first`, where `bindings/library` has made the library.

use nicoisetarn::{Answer, Figures, Refusal, Unit};

fn main() -> Result<(), Refusal> {
    // One set of one way over 32 bytes of zeroed memory.
    let mut unit = Unit::start(Figures::new(1, 1), vec![0; 32])?;

    println!("store a byte at 4:     {:?}", unit.store(4, 1, 7)?);
    println!("load it:               {:?}", unit.load(4, 1)?);
    println!("load the next byte:    {:?}", unit.load(5, 1)?);
    println!("abort that load:       {:?}", unit.abort(3)?);
    println!("commit the other two:  {:?}", unit.commit(2)?);

    // The store is committed, and its line is absent: it is requested, filled, written.
    println!("idle:                  {:?}", unit.idle()?);
    println!("reply:                 {:?}", unit.reply()?);
    println!("idle:                  {:?}", unit.idle()?);
    println!("the line:              {:?}", unit.show_line(4).bytes);
    println!("flush:                 {:?}", unit.flush()?);
    assert_eq!(unit.memory()[4], 7);

    // The number of the aborted load is given again.
    println!("load the next byte:    {:?}", unit.load(5, 1)?);

    // A refusal says why, and nothing has changed.
    let before = unit.clone();
    match unit.load(5, 2) {
        Err(refusal) => println!("load two bytes at 5:   {refusal}"),
        Ok(answer) => panic!("{answer:?}"),
    }
    assert_eq!(unit, before);
    assert_eq!(unit.idle()?, Answer::Idle);
    Ok(())
}
