//! Stand-in for the `log` crate: `debug!` type-checks its arguments and prints nothing.

#[macro_export]
macro_rules! debug {
    ($($t:tt)*) => {
        if false {
            let _ = format_args!($($t)*);
        }
    };
}
