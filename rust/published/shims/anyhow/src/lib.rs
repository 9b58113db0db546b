//! An error with a text, or with a refusal number of document 01, under the names of `anyhow`.

pub struct Error {
    /// A refusal of document 01; 0 for an error that the published file gives itself.
    pub refusal: u8,
    pub text: String,
}

impl Error {
    pub fn msg(text: String) -> Self {
        Error { refusal: 0, text }
    }

    pub fn refused(refusal: u8) -> Self {
        Error { refusal, text: String::new() }
    }
}

pub type Result<T, E = Error> = std::result::Result<T, E>;

#[allow(non_snake_case)]
pub fn Ok<T>(value: T) -> Result<T> {
    Result::Ok(value)
}

#[macro_export]
macro_rules! anyhow {
    ($($text:tt)*) => {
        $crate::Error::msg(format!($($text)*))
    };
}

#[macro_export]
macro_rules! bail {
    ($($text:tt)*) => {
        return Err($crate::anyhow!($($text)*))
    };
}
