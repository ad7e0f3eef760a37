//! Nothing is logged.
#[macro_export]
macro_rules! trace {
    ($($part:tt)*) => { if false { let _ = format!($($part)*); } };
}

#[macro_export]
macro_rules! debug {
    ($($part:tt)*) => { if false { let _ = format!($($part)*); } };
}
