//! `pogandir`: see help.txt.

use std::env;
use std::ffi::OsString;
use std::process::ExitCode;

use pogandir::commands::{self, print, tell};
use pogandir::options::{self, Request, HELP};

fn main() -> ExitCode {
    let arguments: Result<Vec<String>, OsString> =
        env::args_os().skip(1).map(OsString::into_string).collect();
    let request = match arguments {
        Ok(arguments) => options::read(&arguments),
        Err(_) => Err("an argument is not UTF-8; - reads standard input".to_string()),
    };
    ExitCode::from(match request {
        Ok(Request::Run(options)) => commands::run(&options),
        Ok(Request::Help) => shown(HELP),
        Ok(Request::Version) => shown(concat!("pogandir ", env!("CARGO_PKG_VERSION"), "\n")),
        Err(message) => {
            tell(&format!("pogandir: {message}"));
            commands::BAD_INPUT
        }
    })
}

fn shown(text: &str) -> u8 {
    match print(&mut text.as_bytes().to_vec()) {
        Ok(()) => commands::AS_EXPECTED,
        Err(_) => commands::FAILED,
    }
}
