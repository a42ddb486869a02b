//! Stands in for the crate `tracing`: each message goes into the record.

pub fn record(message: impl Into<String>, number: u64) {
    witness::write(witness::Note::Said(message.into(), number));
}

#[macro_export]
macro_rules! trace {
    (source = $id:expr, $message:literal $(,)?) => {
        $crate::record($message, $id as u64)
    };
    ($($text:tt)*) => {
        $crate::record(format!($($text)*), 0)
    };
}

#[macro_export]
macro_rules! warn {
    // The field is a token; as a number it is its key.
    (?$token:ident, $message:literal $(,)?) => {
        $crate::record($message, usize::from($token) as u64)
    };
    ($($text:tt)*) => {
        $crate::record(format!($($text)*), 0)
    };
}
