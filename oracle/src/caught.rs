//! Panics of the Rust are answers here: they are caught and their message is kept.

use std::panic::{AssertUnwindSafe, catch_unwind, set_hook};

/// No message on the terminal for a panic that is caught.
pub fn silence() {
    set_hook(Box::new(|_| {}));
}

pub fn caught<T>(call: impl FnOnce() -> T) -> Result<T, String> {
    catch_unwind(AssertUnwindSafe(call)).map_err(|payload| {
        let owned = payload.downcast_ref::<String>().cloned();
        let fixed = payload.downcast_ref::<&str>().map(|s| s.to_string());
        owned.or(fixed).unwrap_or_default()
    })
}
