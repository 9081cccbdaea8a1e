//! Why a command gave no answer.

use stephylax::Refusal;

/// What to do about a series that is refused.
#[derive(Clone, Copy, PartialEq)]
pub enum Remedy {
    /// A text is accepted after mending.
    Mend,
    /// A carriage return before a line feed can be taken out.
    TakeOutReturns,
}

pub enum Failure {
    /// The library refused. `at` says where, if its sentence does not.
    Refused { refusal: Refusal, at: Option<String>, remedy: Option<Remedy> },
    /// The mount's call refused; it tells a number alone.
    MountRefused(u64),
    /// The words do not make a command.
    Use(String),
    /// A file cannot be read or written.
    File(String),
    /// Standard output did not take everything.
    Output(String),
}

impl From<Refusal> for Failure {
    fn from(refusal: Refusal) -> Failure {
        Failure::Refused { refusal, at: None, remedy: None }
    }
}

/// What a refusal says. A window here may be longer than the library's day, as it is asked day by day.
pub fn sentence(refusal: Refusal) -> String {
    match refusal {
        Refusal::BadWindow => {
            "the keep-out angle is outside 60 to 2,700 arcminutes, or the window has no minute".to_string()
        }
        _ => refusal.sentence(),
    }
}

/// The same after its number and its figure.
fn told(refusal: Refusal) -> String {
    format!("refused {} ({}): {}", refusal.number(), refusal.figure(), sentence(refusal))
}

impl Failure {
    pub fn refused_at(refusal: Refusal, at: String) -> Failure {
        Failure::Refused { refusal, at: Some(at), remedy: None }
    }

    /// The exit status.
    pub fn status(&self) -> u8 {
        match self {
            Failure::Refused { .. } | Failure::MountRefused(_) => 1,
            Failure::Use(_) => 2,
            Failure::File(_) | Failure::Output(_) => 3,
        }
    }

    /// What is wrong, as it is told on standard error.
    pub fn words(&self) -> String {
        match self {
            Failure::Refused { refusal, at: None, .. } => told(*refusal),
            Failure::Refused { refusal, at: Some(at), .. } => format!("{}; {at}", told(*refusal)),
            Failure::MountRefused(number) => {
                format!("refused {number}: the mount's place, though the place itself was answered")
            }
            Failure::Use(words) | Failure::File(words) | Failure::Output(words) => words.clone(),
        }
    }

    /// What to do about it, on a line of its own, where that is known.
    pub fn hint(&self) -> &'static str {
        match self {
            Failure::Use(_) => "Try `stephylax --help`.\n",
            Failure::Refused { remedy: Some(Remedy::Mend), .. } => {
                "Mended, it is a good series: stephylax mend FILE NEW\n"
            }
            Failure::Refused { remedy: Some(Remedy::TakeOutReturns), .. } => {
                "Its lines end with carriage returns. Take them out: tr -d '\\r' < FILE > NEW\n"
            }
            _ => "",
        }
    }
}
