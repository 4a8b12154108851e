//! The stack that `foq.h` says is enough.

use std::thread;

/// Its length in bytes.
const STACK: usize = 512 << 10;

/// What a call gives on a thread with that stack.
pub fn on_that_stack<T: Send>(call: impl FnOnce() -> T + Send) -> T {
    let builder = thread::Builder::new().stack_size(STACK);
    thread::scope(|scope| builder.spawn_scoped(scope, call).unwrap().join().unwrap())
}
