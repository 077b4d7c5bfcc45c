//! The clock's trees: each of its size, and lowered alike by kaori and the port.

use oracle::{
    clock::{cells, rows},
    port::Port,
};
use std::thread;

#[test]
fn every_row_is_answered() {
    assert_eq!((cells().len(), rows().len()), (12, 24));
    let all = || rows().iter().for_each(|row| assert!(row.is_answered_by(Port::LINKED), "{row}"));
    // Deep trees need more than a test's own stack.
    thread::Builder::new().stack_size(1 << 30).spawn(all).unwrap().join().unwrap();
}
