//! Every tree fits a normal thread's stack.

use oracle::{
    depth::{MOST_TAKEN, shapes},
    port::Port,
};

/// Measured first: a stack that is too small would end the test's process without a word on the shape.
#[test]
fn every_shape_fits() {
    for shape in shapes() {
        let used = shape.used(Port::LINKED);
        assert!(used.bytes <= MOST_TAKEN, "{} bytes: {}", used.bytes, shape.name);
        shape.runs(Port::LINKED);
    }
}
