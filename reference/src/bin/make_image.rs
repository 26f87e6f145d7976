//! Makes an image out of hexadecimal words, registers and flags.

use reference::image;
use reference::refusal::MOST_WORDS;
use reference::{Flags, Machine};
use std::fs;
use std::io::{self, IsTerminal, Write};
use std::process::ExitCode;

const HELP: &str = "\
Makes an image of the FM8502 recorder card.

Usage: make_image [OPTION]... [WORD]...

WORD is a memory word of 1 to 8 hexadecimal digits; the first goes to address 0.

Options:
  -w, --words FILE     take words from FILE, in the place where the option stands;
                       they are separated by white space, # begins a comment
  -m, --memory COUNT   make the memory COUNT words long (decimal, 1 to 16777216);
                       words not given are 0
  -r, --register N=HEX set register N (0 to 7); the others are 0
  -f, --flags CVNZ     set the flags, four digits 0 or 1, such as 1001; else 0000
      --version N      make an image of version N, 1 or 2; else 1
  -o, --output FILE    write to FILE instead of standard output
  -h, --help           print this

Example: make_image -r 1=FFFFFFFF -o one.image 00013C21 0 0 0
";

/// What the command line asks for.
#[derive(Default)]
struct Request {
    machine: Machine,
    words: Vec<u32>,
    length: Option<usize>,
    version: Option<u32>,
    output: Option<String>,
    help: bool,
}

fn main() -> ExitCode {
    match parse(std::env::args().skip(1)).and_then(carry_out) {
        Ok(()) => ExitCode::SUCCESS,
        Err(message) => {
            eprintln!("make_image: {message}");
            eprintln!("make_image --help tells how it is used");
            ExitCode::FAILURE
        }
    }
}

fn parse(mut arguments: impl Iterator<Item = String>) -> Result<Request, String> {
    let mut request = Request::default();
    while let Some(argument) = arguments.next() {
        let mut value = || {
            arguments
                .next()
                .ok_or(format!("{argument} needs a value after it"))
        };
        match argument.as_str() {
            "-w" | "--words" => request.words.extend(words_of_file(&value()?)?),
            "-m" | "--memory" => request.length = Some(memory_length(&value()?)?),
            "-r" | "--register" => {
                let (number, word) = register(&value()?)?;
                request.machine.registers[number] = word;
            }
            "-f" | "--flags" => request.machine.flags = flags(&value()?)?,
            "--version" => request.version = Some(version(&value()?)?),
            "-o" | "--output" => request.output = Some(value()?),
            "-h" | "--help" => request.help = true,
            option if option.starts_with('-') => return Err(format!("unknown option {option}")),
            word => request.words.push(hexadecimal(word)?),
        }
    }
    Ok(request)
}

fn carry_out(request: Request) -> Result<(), String> {
    if request.help {
        print!("{HELP}");
        return Ok(());
    }
    let mut memory = request.words;
    if let Some(length) = request.length {
        if memory.len() > length {
            let given = memory.len();
            return Err(format!("{given} words do not fit a memory of {length}"));
        }
        memory.resize(length, 0);
    }
    if memory.is_empty() {
        return Err("no words given: an image has at least one".into());
    }
    let version = request.version.unwrap_or(1);
    let bytes = image::to_bytes(&request.machine, &memory, version)
        .map_err(|_| format!("more than {MOST_WORDS} words given"))?;
    write_image(&bytes, request.output.as_deref())
}

fn write_image(bytes: &[u8], output: Option<&str>) -> Result<(), String> {
    let Some(path) = output else {
        let mut stdout = io::stdout();
        if stdout.is_terminal() {
            return Err("an image is no text for a terminal; use --output FILE".into());
        }
        return stdout
            .write_all(bytes)
            .map_err(|error| format!("cannot write to standard output: {error}"));
    };
    fs::write(path, bytes).map_err(|error| format!("cannot write {path}: {error}"))
}

fn words_of_file(path: &str) -> Result<Vec<u32>, String> {
    let text = fs::read_to_string(path).map_err(|error| format!("cannot read {path}: {error}"))?;
    let mut words = Vec::new();
    for (number, line) in text.lines().enumerate() {
        let code = line.split('#').next().unwrap_or_default();
        for word in code.split_whitespace() {
            let word = hexadecimal(word)
                .map_err(|message| format!("{path}, line {}: {message}", number + 1))?;
            words.push(word);
        }
    }
    Ok(words)
}

fn hexadecimal(text: &str) -> Result<u32, String> {
    let digits_only = text.bytes().all(|byte| byte.is_ascii_hexdigit());
    if !digits_only || text.is_empty() || text.len() > 8 {
        return Err(format!("'{text}' is not 1 to 8 hexadecimal digits"));
    }
    u32::from_str_radix(text, 16).map_err(|error| format!("'{text}': {error}"))
}

fn memory_length(text: &str) -> Result<usize, String> {
    match text.parse() {
        Ok(length @ 1..=MOST_WORDS) => Ok(length),
        _ => Err(format!(
            "memory '{text}' is not a number from 1 to {MOST_WORDS}"
        )),
    }
}

fn version(text: &str) -> Result<u32, String> {
    match text {
        "1" => Ok(1),
        "2" => Ok(2),
        _ => Err(format!("version '{text}' is neither 1 nor 2")),
    }
}

fn register(text: &str) -> Result<(usize, u32), String> {
    let Some((number, word)) = text.split_once('=') else {
        return Err(format!("register '{text}' is not of the form N=HEX"));
    };
    match number.parse() {
        Ok(number @ 0..=7) => Ok((number, hexadecimal(word)?)),
        _ => Err(format!("there is no register '{number}', only 0 to 7")),
    }
}

fn flags(text: &str) -> Result<Flags, String> {
    let wrong = || format!("flags '{text}' are not four digits 0 or 1, in the order C, V, N, Z");
    let digits: [u8; 4] = text.as_bytes().try_into().map_err(|_| wrong())?;
    if digits.iter().any(|digit| !matches!(digit, b'0' | b'1')) {
        return Err(wrong());
    }
    Ok(Flags::from_array(digits.map(|digit| digit == b'1')))
}
