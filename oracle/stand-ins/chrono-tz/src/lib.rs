//! A stand-in for chrono-tz: the names of the zones that the original names, and nothing of what they mean.

#![forbid(unsafe_code)]

#[derive(Clone, Copy, Debug, PartialEq, Eq)]
pub struct Tz(&'static str);

impl chrono::TimeZone for Tz {}

impl Tz {
    pub fn name(self) -> &'static str {
        self.0
    }
}

/// Constants with the names that chrono-tz gives them.
macro_rules! zones {
    ($($area:ident: $($city:ident)*;)*) => {
        $(#[allow(non_snake_case, non_upper_case_globals)]
        pub mod $area {
            $(pub const $city: crate::Tz =
                crate::Tz(concat!(stringify!($area), "/", stringify!($city)));)*
        })*
    };
}

zones! {
    America: New_York Toronto;
    Europe: London;
    Asia: Tokyo;
}

#[cfg(test)]
mod tests {
    #[test]
    fn names() {
        assert_eq!(crate::America::New_York.name(), "America/New_York");
        assert_eq!(crate::Asia::Tokyo.name(), "Asia/Tokyo");
    }
}
