//! `card KERNEL [name=value ..]`: a kernel run over memory and state from files.

use crate::batch::{MOST_CODE_WORDS, MOST_MEMORY_BYTES};
use crate::lines::{outcome_lines, register_lines, words};
use crate::machine::{Machine, STATE_BYTES};
use crate::run::run;
use std::fs::{self, File};
use std::io::Read;
use std::path::{Path, PathBuf};

pub const USAGE: &str = "\
usage: card KERNEL [name=value ..]
runs the kernel file (raw big-endian words) and prints what it left
  memory=FILE      the bytes of memory (default: none)
  base=N           the address of the first byte of memory (default 0)
  place=N          the word to begin with (default 0)
  allowance=N      the most words to run (default 4294967295)
  state=FILE       the machine at the start, 660 bytes (default: all zero)
  memory-out=FILE  where to write memory after the run
  state-out=FILE   where to write the machine after the run
numbers are decimal, or hex after 0x
example: card kernel.bin memory=image.bin base=0x1000 memory-out=result.bin
";

/// What the arguments ask for.
struct Request {
    kernel: PathBuf,
    memory: Option<PathBuf>,
    state: Option<PathBuf>,
    memory_out: Option<PathBuf>,
    state_out: Option<PathBuf>,
    base: u32,
    place: u32,
    allowance: u32,
}

/// The lines to print, or the one line that says what is wrong.
pub fn card(arguments: &[String]) -> Result<String, String> {
    match arguments {
        [] => Ok(USAGE.to_string()),
        [only] if only == "help" => Ok(USAGE.to_string()),
        [kernel, settings @ ..] => Request::read(kernel, settings)?.perform(),
    }
}

impl Request {
    fn read(kernel: &str, settings: &[String]) -> Result<Request, String> {
        let mut request = Request {
            kernel: kernel.into(),
            memory: None,
            state: None,
            memory_out: None,
            state_out: None,
            base: 0,
            place: 0,
            allowance: u32::MAX,
        };
        let mut given: Vec<&str> = Vec::new();
        for setting in settings {
            let Some((name, value)) = setting.split_once('=') else {
                return Err(format!("{setting}: no setting of the form name=value"));
            };
            if given.contains(&name) {
                return Err(format!("{name}: given twice"));
            }
            given.push(name);
            match name {
                "memory" => request.memory = Some(value.into()),
                "state" => request.state = Some(value.into()),
                "memory-out" => request.memory_out = Some(value.into()),
                "state-out" => request.state_out = Some(value.into()),
                "base" => request.base = number(name, value)?,
                "place" => request.place = number(name, value)?,
                "allowance" => request.allowance = number(name, value)?,
                _ => return Err(format!("{name}: unknown name")),
            }
        }
        if request.memory_out.is_some() && request.memory_out == request.state_out {
            return Err("state-out: the same file as memory-out".into());
        }
        Ok(request)
    }

    fn perform(&self) -> Result<String, String> {
        let code = words(&read_file(&self.kernel, 4 * MOST_CODE_WORDS)?)
            .ok_or_else(|| complaint(&self.kernel, "length is no multiple of 4"))?;
        let mut memory = match &self.memory {
            Some(path) => read_file(path, MOST_MEMORY_BYTES)?,
            None => Vec::new(),
        };
        let mut machine = match &self.state {
            Some(path) => read_state(path)?,
            None => Machine::default(),
        };
        let (base, place, allowance) = (self.base, self.place, self.allowance);
        let outcome = run(&mut machine, &code, &mut memory, base, place, allowance);
        if let Some(path) = &self.memory_out {
            write_whole(path, &memory)?;
        }
        if let Some(path) = &self.state_out {
            write_whole(path, &machine.to_state())?;
        }
        Ok(outcome_lines(&outcome, &machine) + &register_lines(&machine))
    }
}

fn complaint(path: &Path, what: impl std::fmt::Display) -> String {
    format!("{}: {what}", path.display())
}

/// Decimal digits, or hex digits after 0x; nothing else, and at most 32 bits.
fn number(name: &str, value: &str) -> Result<u32, String> {
    let (digits, radix) = match value.strip_prefix("0x") {
        Some(digits) => (digits, 16),
        None => (value, 10),
    };
    if digits.is_empty() || !digits.chars().all(|c| c.is_digit(radix)) {
        return Err(format!("{name}: {value} is no number"));
    }
    u32::from_str_radix(digits, radix).map_err(|_| format!("{name}: {value} does not fit 32 bits"))
}

fn read_file(path: &Path, most: usize) -> Result<Vec<u8>, String> {
    let mut bytes = Vec::new();
    File::open(path)
        .and_then(|file| file.take(most as u64 + 1).read_to_end(&mut bytes))
        .map_err(|error| complaint(path, format!("cannot be read: {error}")))?;
    if bytes.len() > most {
        return Err(complaint(path, format!("longer than {most} bytes")));
    }
    Ok(bytes)
}

fn read_state(path: &Path) -> Result<Machine, String> {
    let bytes = read_file(path, STATE_BYTES)?;
    let state = bytes
        .as_slice()
        .try_into()
        .map_err(|_| complaint(path, format!("not {STATE_BYTES} bytes long")))?;
    Ok(Machine::from_state(state))
}

/// Writes a file beside the one that is meant and renames it, so that no part is ever seen.
fn write_whole(path: &Path, bytes: &[u8]) -> Result<(), String> {
    let mut name = path.as_os_str().to_owned();
    name.push(format!(".{}.part", std::process::id()));
    let part = PathBuf::from(name);
    fs::write(&part, bytes)
        .and_then(|()| fs::rename(&part, path))
        .map_err(|error| {
            // The part may not be there at all; what went wrong is already known.
            let _ = fs::remove_file(&part);
            complaint(path, format!("cannot be written: {error}"))
        })
}

#[cfg(test)]
mod tests {
    use super::*;

    /// A folder of its own for each test, removed at the end.
    struct Folder(PathBuf);

    impl Folder {
        fn new(name: &str) -> Folder {
            let path = std::env::temp_dir().join(format!("second-{}-{name}", std::process::id()));
            fs::create_dir_all(&path).unwrap();
            Folder(path)
        }

        fn file(&self, name: &str, bytes: &[u8]) -> String {
            let path = self.0.join(name);
            fs::write(&path, bytes).unwrap();
            path.display().to_string()
        }

        fn name(&self, name: &str) -> String {
            self.0.join(name).display().to_string()
        }
    }

    impl Drop for Folder {
        fn drop(&mut self) {
            fs::remove_dir_all(&self.0).unwrap();
        }
    }

    fn call(arguments: &[String]) -> Result<String, String> {
        card(arguments)
    }

    #[test]
    fn help_is_given_alone_and_on_request() {
        assert_eq!(call(&[]), Ok(USAGE.to_string()));
        assert_eq!(call(&["help".to_string()]), Ok(USAGE.to_string()));
    }

    #[test]
    fn memory_and_state_go_out_and_in_again() {
        let folder = Folder::new("round");
        // addi r3,0,0x1010; lvx v1,0,r3; stvx v1,0,r4
        let kernel = folder.file(
            "kernel",
            &[
                0x38, 0x60, 0x10, 0x10, 0x7c, 0x20, 0x18, 0xce, 0x7c, 0x20, 0x21, 0xce,
            ],
        );
        let mut machine = Machine::default();
        machine.gpr[4] = 0x1000;
        let state = folder.file("state", &machine.to_state());
        let memory = folder.file("memory", &(0..32).collect::<Vec<u8>>());
        let printed = call(&[
            kernel,
            format!("memory={memory}"),
            "base=0x1000".to_string(),
            format!("state={state}"),
            format!("memory-out={}", folder.name("memory-out")),
            format!("state-out={}", folder.name("state-out")),
        ]);
        assert_eq!(
            printed.unwrap(),
            "answer 0 steps 3 place 3 sat 0 nj 0 cr6 0000\n\
             v1 101112131415161718191a1b1c1d1e1f\n\
             r3 00001010\n\
             r4 00001000\n"
        );
        let left = fs::read(folder.name("memory-out")).unwrap();
        assert_eq!(left[..16], left[16..]);
        assert_eq!(fs::read(folder.name("state-out")).unwrap().len(), 660);
    }

    #[test]
    fn place_and_allowance_are_taken() {
        let folder = Folder::new("place");
        let kernel = folder.file("kernel", &[0x10, 0, 0x04, 0x84].repeat(4));
        let printed = call(&[kernel, "place=1".into(), "allowance=0x2".into()]).unwrap();
        assert_eq!(printed, "answer 1 steps 2 place 3 sat 0 nj 0 cr6 0000\n");
    }

    #[test]
    fn the_runs_own_refusals_are_answers() {
        let folder = Folder::new("refusals");
        let kernel = folder.file("kernel", &[0x10, 0, 0x04, 0x84]);
        let long = folder.file("long", &[0; 65_540]);
        let memory = folder.file("memory", &[0; 65_552]);
        let first = |printed: Result<String, String>| printed.unwrap()[..8].to_string();
        assert_eq!(
            first(call(&[kernel.clone(), format!("memory={memory}")])),
            "answer 2"
        );
        assert_eq!(first(call(&[long])), "answer 3");
        assert_eq!(first(call(&[kernel, "place=2".into()])), "answer 4");
    }

    #[test]
    fn wrong_arguments_are_named() {
        let folder = Folder::new("wrong");
        let kernel = folder.file("kernel", &[]);
        let wrong = |setting: &str| call(&[kernel.clone(), setting.to_string()]).unwrap_err();
        assert_eq!(wrong("speed=1"), "speed: unknown name");
        assert_eq!(wrong("base"), "base: no setting of the form name=value");
        assert_eq!(wrong("base="), "base:  is no number");
        assert_eq!(wrong("base=+1"), "base: +1 is no number");
        assert_eq!(wrong("base=0x"), "base: 0x is no number");
        assert_eq!(
            wrong("place=4294967296"),
            "place: 4294967296 does not fit 32 bits"
        );
        assert!(wrong("memory=/no/such/file").starts_with("/no/such/file: cannot be read"));
        let twice = call(&[kernel.clone(), "base=0".into(), "base=0".into()]);
        assert_eq!(twice.unwrap_err(), "base: given twice");
        let one_file = call(&[kernel.clone(), "memory-out=x".into(), "state-out=x".into()]);
        assert_eq!(
            one_file.unwrap_err(),
            "state-out: the same file as memory-out"
        );
    }

    #[test]
    fn wrong_files_are_named_and_nothing_is_written() {
        let folder = Folder::new("files");
        let kernel = folder.file("kernel", &[0x10, 0, 0x04, 0x84]);
        let odd = folder.file("odd", &[1, 2, 3]);
        let long = folder.file("long", &[0; 65_544]);
        let out = format!("memory-out={}", folder.name("out"));
        let error = |arguments: &[String]| call(arguments).unwrap_err();
        assert_eq!(
            error(&[odd.clone(), out.clone()]),
            format!("{odd}: length is no multiple of 4")
        );
        assert_eq!(
            error(&[long.clone(), out.clone()]),
            format!("{long}: longer than 65540 bytes")
        );
        assert_eq!(
            error(&[kernel, format!("state={odd}"), out]),
            format!("{odd}: not 660 bytes long")
        );
        assert!(!folder.0.join("out").exists());
    }
}
