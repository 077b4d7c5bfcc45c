pub mod native_function {
    pub type NativeFunction = fn();
}

/// The virtual machine stays out.
pub mod vm {
    use crate::{
        diagnostics::error::Error,
        runtime::{function::Function, native_function::NativeFunction},
    };

    pub fn run_vm(_: usize, _: Vec<Function>, _: Vec<NativeFunction>) -> Result<(), Error> {
        unreachable!("nothing is run here")
    }
}
