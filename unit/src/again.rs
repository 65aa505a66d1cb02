//! The command before the library is proved: what is wrong with words and files is found without it. Where the library is needed, tools/unit is called once
//! more, which makes it, and gets the standard input that was read here.
use crate::text;
use std::io::{Seek, Write};
use std::os::unix::process::CommandExt;
use std::process::{Command, Stdio};

pub fn begin() {
    let _ = bindings::MISSING.set(call);
}

fn call() -> ! {
    let tool = std::env::var_os("UNIT_AGAIN").unwrap_or_else(|| "tools/unit".into());
    let mut again = Command::new(&tool);
    again.args(std::env::args_os().skip(1)).env("UNIT_AGAIN", &tool);
    let error = match text::INPUT.get().map(|data| spooled(data)) {
        Some(Err(error)) => error,
        Some(Ok(file)) => again.stdin(Stdio::from(file)).exec(),
        None => again.exec(),
    };
    eprintln!("tools/unit: {}: {}", tool.to_string_lossy(), text::system(&error));
    std::process::exit(crate::BAD_USE as i32)
}

/// A file without a name that has these bytes before it.
fn spooled(data: &[u8]) -> std::io::Result<std::fs::File> {
    let name = std::env::temp_dir().join(format!("unit-input-{}", std::process::id()));
    let mut file = std::fs::OpenOptions::new().read(true).write(true).create_new(true).open(&name)?;
    std::fs::remove_file(&name)?;
    file.write_all(data)?;
    file.rewind()?;
    Ok(file)
}
