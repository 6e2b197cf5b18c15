//! Stand-in for `tracing`: messages go nowhere.

#[macro_export]
macro_rules! warn {
    ($($message:tt)*) => {};
}
