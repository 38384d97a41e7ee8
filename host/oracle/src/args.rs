//! Command lines of the host's programs: options in any order, exit code 2 on bad usage or input.

use std::process::ExitCode;

/// The arguments that are not taken yet.
pub struct Args {
    rest: Vec<String>,
}

impl Args {
    /// Takes an option without value.
    pub fn flag(&mut self, name: &str) -> bool {
        let place = self.rest.iter().position(|arg| arg == name);
        place.map(|place| self.rest.remove(place)).is_some()
    }

    /// Takes an option with the value that follows it.
    pub fn value(&mut self, name: &str) -> Result<Option<String>, String> {
        let Some(place) = self.rest.iter().position(|arg| arg == name) else {
            return Ok(None);
        };
        if place + 1 == self.rest.len() {
            return Err(format!("{name} needs a value"));
        }
        self.rest.remove(place);
        Ok(Some(self.rest.remove(place)))
    }

    /// Takes an option whose value is a number.
    pub fn number(&mut self, name: &str) -> Result<Option<u64>, String> {
        let Some(text) = self.value(name)? else {
            return Ok(None);
        };
        let number = text
            .parse()
            .map_err(|_| format!("{name} needs a number, not `{text}`"))?;
        Ok(Some(number))
    }

    /// Takes the option `--edition`, whose value is any u32: an edition that is unknown has its refusal.
    pub fn edition(&mut self) -> Result<Option<u32>, String> {
        let number = self.number("--edition")?.map(u32::try_from).transpose();
        number.map_err(|_| "--edition needs a number of 32 bits".to_string())
    }

    /// The operands; every option must have been taken before.
    pub fn operands<const N: usize>(self) -> Result<[String; N], String> {
        let operands = self.any_operands()?;
        let count = operands.len();
        operands
            .try_into()
            .map_err(|_| format!("{count} operands given, {N} needed"))
    }

    /// The operands, however many.
    pub fn any_operands(self) -> Result<Vec<String>, String> {
        match self.rest.iter().find(|arg| arg.starts_with("--")) {
            Some(option) => Err(format!("unknown option {option}")),
            None => Ok(self.rest),
        }
    }
}

/// Runs a program's body on its arguments; `--help` prints the help.
pub fn run(help: &str, body: impl FnOnce(Args) -> Result<ExitCode, String>) -> ExitCode {
    let mut args = Args {
        rest: std::env::args().skip(1).collect(),
    };
    if args.flag("--help") {
        print!("{help}");
        return ExitCode::SUCCESS;
    }
    body(args).unwrap_or_else(|message| {
        eprintln!("error: {message}\nsee --help");
        ExitCode::from(2)
    })
}
