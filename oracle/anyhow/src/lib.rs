//! A stand-in for the error crate: an error is its messages, outermost first.

pub struct Error(pub String);

impl std::fmt::Debug for Error {
    fn fmt(&self, f: &mut std::fmt::Formatter<'_>) -> std::fmt::Result {
        f.write_str(&self.0)
    }
}

pub type Result<T> = std::result::Result<T, Error>;

pub trait Context<T>: Sized {
    fn with_context<S: ToString>(self, message: impl FnOnce() -> S) -> Result<T>;

    fn context<S: ToString>(self, message: S) -> Result<T> {
        self.with_context(|| message)
    }
}

impl<T> Context<T> for Option<T> {
    fn with_context<S: ToString>(self, message: impl FnOnce() -> S) -> Result<T> {
        self.ok_or_else(|| Error(message().to_string()))
    }
}

impl<T> Context<T> for Result<T> {
    fn with_context<S: ToString>(self, message: impl FnOnce() -> S) -> Result<T> {
        self.map_err(|inner| Error(format!("{}: {}", message().to_string(), inner.0)))
    }
}

#[macro_export]
macro_rules! bail {
    ($format:literal $($rest:tt)*) => {
        return Err($crate::Error(format!($format $($rest)*)))
    };
}

#[macro_export]
macro_rules! ensure {
    ($test:expr, $format:literal $(,)?) => {
        if !$test {
            return Err($crate::Error(format!($format)));
        }
    };
    ($test:expr, $message:expr $(,)?) => {
        if !$test {
            return Err($crate::Error($message.to_string()));
        }
    };
}
