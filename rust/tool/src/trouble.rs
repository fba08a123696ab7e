//! Why the tool stops before it is done, with the exit code that goes with it.

#[derive(Debug)]
pub struct Trouble {
    pub code: u8,
    pub message: String,
}

pub type Outcome<T> = Result<T, Trouble>;

/// The library refuses the pack.
pub fn refused(message: impl Into<String>) -> Trouble {
    Trouble { code: 1, message: message.into() }
}

/// The command line or a file is not as it must be.
pub fn unusable(message: impl Into<String>) -> Trouble {
    Trouble { code: 2, message: message.into() }
}

/// What the tool works out and what the library answers are not the same: a fault in one of the two.
pub fn disagreement(message: impl Into<String>) -> Trouble {
    let message = message.into();
    Trouble {
        code: 3,
        message: format!(
            "error: the tool and the library disagree: {message}\nNothing was written; please report this pack."
        ),
    }
}
