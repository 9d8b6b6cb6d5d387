//! Stands in for the texts of the messages, which the money side never prints.

#[macro_export]
macro_rules! tr {
    ($($text:tt)*) => {
        String::new()
    };
}
