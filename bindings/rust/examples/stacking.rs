//! Stacks the traces of an image under a wait list, rolls a file back, runs into a word
//! that is no instruction, stores into a loader on a board that holds it, and on one that
//! does not, restarts a drifted sledge by its reset line, and runs the files of a line as a
//! traverse under either rule.
//! Usage: `stacking FOLDER`, the folder of the example images.

use fm8502::library::{self, FILE_SIZE, MACHINE_SIZE};
use fm8502::{
    file_run, gate_run, image_size, journal_places, read_image, run, traverse, write_image,
};
use fm8502::{File, FileRun, Flags, GateState, Machine, Refused, Rule, Run, Traverse, Undone};
use std::path::{Path, PathBuf};
use std::{env, fs, io};

const INSTRUCTIONS: u32 = 90;
const TRACE_COUNT: usize = 0x0F;
const ACCUMULATORS: std::ops::Range<usize> = 0x10..0x18;
/// Of loader.image; as many accumulators lie behind it.
const LOADER_WORDS: usize = 4;
/// A clock on which restart.image is stuck.
const RESET: u64 = 1000;
/// Of the instructions after it.
const FIRST_PART: u32 = 40;
const RESTARTED_ACCUMULATORS: std::ops::Range<usize> = 0x14..0x18;
/// Places of a journal for line.files under rule 2: too few for the addresses that are stored to.
const SHORT: usize = 17;
/// Of line.image.
const FILE_COUNT: usize = 0x0B;
const PROFILE: std::ops::Range<usize> = 0x0C..0x0F;

fn main() -> io::Result<()> {
    let folder = PathBuf::from(env::args().nth(1).unwrap_or("examples".into()));
    let waits = load_waits(&folder.join("stacking.waits"))?;
    let (mut memory, machine, _) = load(&folder, "stacking.image")?;
    stack(&mut memory, &waits, machine).map_err(io::Error::other)?;
    let (mut memory, machine, _) = load(&folder, "outside.image")?;
    roll_back(&mut memory, machine).map_err(io::Error::other)?;
    let (mut memory, machine, _) = load(&folder, "halted.image")?;
    halt(&mut memory, &waits, machine).map_err(io::Error::other)?;
    let (mut memory, machine, _) = load(&folder, "loader.image")?;
    store_into_loader(&mut memory, &waits, machine).map_err(io::Error::other)?;
    let (memory, machine, _) = load(&folder, "restart.image")?;
    restart(&memory, &waits, machine).map_err(io::Error::other)?;
    let (memory, machine, rule) = load(&folder, "line.image")?;
    let lines = load_lines(&folder.join("line.files"))?;
    run_line(&memory, machine, rule, &lines).map_err(io::Error::other)
}

fn load_waits(path: &Path) -> io::Result<Vec<u16>> {
    let text = fs::read_to_string(path)?;
    let entries = text.split_whitespace().map(str::parse);
    entries
        .collect::<Result<_, _>>()
        .map_err(|error| io::Error::other(format!("{}: {error}", path.display())))
}

fn load(folder: &Path, name: &str) -> io::Result<(Vec<u32>, Machine, Rule)> {
    let bytes = fs::read(folder.join(name))?;
    let mut memory = vec![0; 4_096];
    let (machine, words, rule) = read_image(&bytes, &mut memory).map_err(io::Error::other)?;
    memory.truncate(words);
    println!("{name}: {words} words");
    Ok((memory, machine, rule))
}

/// A file on each line: place, number of words, entry, instruction count, and its words.
fn load_lines(path: &Path) -> io::Result<Vec<Vec<u32>>> {
    let text = fs::read_to_string(path)?;
    let number = |digits| u32::from_str_radix(digits, 16);
    let lines = text
        .lines()
        .map(|line| line.split_whitespace().map(number).collect());
    lines
        .collect::<Result<_, _>>()
        .map_err(|error| io::Error::other(format!("{}: {error}", path.display())))
}

fn stack(memory: &mut [u32], waits: &[u16], start: Machine) -> Result<(), Refused> {
    let mut copy = memory.to_vec();
    let mut machine = start;
    let ran = run_interpreter("run", memory, 0, waits, 0, &mut machine)?;
    println!("flags {}", digits(machine.flags));
    println!("registers{}", words(&machine.registers));
    println!("traces {}", memory[TRACE_COUNT]);
    println!("accumulators{}", words(&memory[ACCUMULATORS]));
    run_gates(&mut copy, 0, waits, &[], start, ran.clocks)?;
    Ok(())
}

fn run_interpreter(
    name: &str,
    memory: &mut [u32],
    bottom: u32,
    waits: &[u16],
    position: u32,
    machine: &mut Machine,
) -> Result<Run, Refused> {
    let ran = run(memory, bottom, waits, position, machine, INSTRUCTIONS)?;
    let ending = match (ran.finished, ran.halted) {
        (true, _) => "finished",
        (false, true) => "no instruction",
        (false, false) => "outside",
    };
    println!(
        "{name}: {ending}, {} instructions, {} clocks",
        ran.ran, ran.clocks
    );
    Ok(ran)
}

fn run_gates(
    memory: &mut [u32],
    bottom: u32,
    waits: &[u16],
    resets: &[u64],
    start: Machine,
    clocks: u64,
) -> Result<GateState, Refused> {
    let mut state = GateState::start(start);
    let finished = gate_run(memory, bottom, waits, resets, &mut state, clocks)?;
    println!("gate machine: {finished} instructions, row {}", state.row);
    Ok(state)
}

/// With a journal of `places` places, which is returned with the run.
fn run_file(
    name: &str,
    memory: &mut [u32],
    bottom: u32,
    machine: &mut Machine,
    places: usize,
) -> Result<(FileRun, Vec<u32>), Refused> {
    let mut journal = vec![0; places];
    let ran = file_run(memory, bottom, &mut journal, machine, INSTRUCTIONS)?;
    let ending = match (ran.finished, ran.full) {
        (true, _) => "finished",
        (false, true) => "journal full",
        (false, false) => "undone",
    };
    println!(
        "{name}: {ending}, {} instructions, {} pairs",
        ran.ran, ran.pairs
    );
    Ok((ran, journal))
}

fn roll_back(memory: &mut [u32], start: Machine) -> Result<(), Refused> {
    let former = memory.to_vec();
    let mut machine = start;
    let (ran, journal) = run_file("file run", memory, 0, &mut machine, 2 * former.len())?;
    println!("journal{}", words(&journal[..2 * ran.pairs as usize]));
    let same = yes_or_no(memory == former && machine == start);
    println!("memory and machine as before: {same}");
    run_file("short journal", memory, 0, &mut machine, 5)?;
    Ok(())
}

fn halt(memory: &mut [u32], waits: &[u16], start: Machine) -> Result<(), Refused> {
    let mut copy = memory.to_vec();
    let mut machine = start;
    run_interpreter("run", memory, 0, waits, 0, &mut machine)?;
    let pc = machine.registers[0];
    println!("next{}", words(&[pc, memory[pc as usize]]));
    run_gates(&mut copy, 0, waits, &[], start, u64::MAX)?;
    Ok(())
}

fn store_into_loader(memory: &mut [u32], waits: &[u16], start: Machine) -> Result<(), Refused> {
    for bottom in [LOADER_WORDS as u32, 0] {
        run_on_board(memory, bottom, waits, start)?;
    }
    let past = memory.len() as u32 + 1;
    let mut machine = start;
    if let Err(Refused(number)) = run(memory, past, waits, 0, &mut machine, INSTRUCTIONS) {
        println!("bottom {past}: refused {number}");
    }
    Ok(())
}

/// Both engines and a file run, each from the start; then a run on the memory that was left.
fn run_on_board(memory: &[u32], bottom: u32, waits: &[u16], start: Machine) -> Result<(), Refused> {
    println!("bottom {bottom}");
    let mut left = memory.to_vec();
    let [mut first, mut file, mut second] = [start; 3];
    let ran = run_interpreter("run", &mut left, bottom, waits, 0, &mut first)?;
    let (loader, behind) = left.split_at(LOADER_WORDS);
    println!("loader{}", words(loader));
    println!("accumulators{}", words(&behind[..LOADER_WORDS]));
    run_gates(&mut memory.to_vec(), bottom, waits, &[], start, ran.clocks)?;
    let mut copy = memory.to_vec();
    run_file("file run", &mut copy, bottom, &mut file, 2 * memory.len())?;
    run_interpreter("again", &mut left, bottom, waits, 0, &mut second)?;
    Ok(())
}

/// A drifted sledge is stuck until a reset; then both engines go on alike.
fn restart(memory: &[u32], waits: &[u16], start: Machine) -> Result<(), Refused> {
    let [mut drifted, mut stuck, mut left, mut copy] = [(); 4].map(|()| memory.to_vec());
    let mut machine = start;
    run_interpreter("run", &mut drifted, 0, waits, 0, &mut machine)?;
    run_gates(&mut stuck, 0, waits, &[], start, RESET)?;
    println!("reset on clock {RESET}");
    let state = run_gates(&mut left, 0, waits, &[RESET], start, RESET + 1)?;
    println!("position {}", state.position);

    let mut parts = left.clone();
    let position = state.position;
    machine = state.machine;
    let ran = run_interpreter("restarted", &mut left, 0, waits, position, &mut machine)?;
    println!("position {}", ran.position);
    println!("accumulators{}", words(&left[RESTARTED_ACCUMULATORS]));
    run_in_parts(&mut parts, waits, state)?;
    // The clocks of a run count from 0, so its number of clocks is past the last of them.
    let clocks = RESET + 1 + ran.clocks;
    let gates = run_gates(&mut copy, 0, waits, &[RESET, clocks], start, clocks)?;
    let same = yes_or_no(copy == left && gates.machine == machine);
    println!("memory and machine as the interpreter's: {same}");
    refuse_resets(memory, waits, start);
    Ok(())
}

/// The interpreter from a state in row 0, in two parts: the second goes on where the first
/// left off.
fn run_in_parts(memory: &mut [u32], waits: &[u16], start: GateState) -> Result<(), Refused> {
    let mut machine = start.machine;
    let first = run(memory, 0, waits, start.position, &mut machine, FIRST_PART)?;
    let rest = INSTRUCTIONS - FIRST_PART;
    let second = run(memory, 0, waits, first.position, &mut machine, rest)?;
    println!(
        "in two parts: {} instructions, {} clocks, position {}",
        first.ran + second.ran,
        first.clocks + second.clocks,
        second.position
    );
    Ok(())
}

fn refuse_resets(memory: &[u32], waits: &[u16], start: Machine) {
    let (mut copy, mut state) = (memory.to_vec(), GateState::start(start));
    let twice = [RESET, RESET];
    let ran = gate_run(&mut copy, 0, waits, &twice, &mut state, RESET + 1);
    if let Err(Refused(number)) = ran {
        println!("resets {RESET} {RESET}: refused {number}");
    }
}

fn run_line(memory: &[u32], start: Machine, rule: Rule, lines: &[Vec<u32>]) -> Result<(), Refused> {
    println!("version {}", u32::from(rule));
    rewrite(memory, start)?;
    take_back(memory, start, lines)?;
    refuse_version(memory, start, lines);
    Ok(())
}

fn rewrite(memory: &[u32], machine: Machine) -> Result<(), Refused> {
    let mut image = vec![0; image_size(memory.len())];
    let size = write_image(memory, &machine, Rule::PerFile, &mut image)?;
    let (_, _, rule) = read_image(&image[..size], &mut memory.to_vec())?;
    let version = u32::from(rule);
    println!("written as version 1: {size} bytes, read again as version {version}");
    Ok(())
}

/// One file of the line is undone: by rule 1 that file is taken back, by rule 2 the line.
fn take_back(memory: &[u32], start: Machine, lines: &[Vec<u32>]) -> Result<(), Refused> {
    let files: Vec<File> = lines.iter().map(|line| file(line)).collect();
    let enough = journal_places(&files, memory.len());
    let (ran, by_file, machine) = run_files(memory, start, &files, Rule::PerFile, enough)?;
    print_undone("rule 1", ran);
    let (ran, whole, former) = run_files(memory, start, &files, Rule::PerTraverse, enough)?;
    print_undone("rule 2", ran);
    let (ran, _, _) = run_files(memory, start, &files, Rule::PerTraverse, SHORT)?;
    print_undone(&format!("rule 2, {SHORT} places"), ran);
    println!("profile, file by file: rule 1, rule 2");
    for (number, point) in PROFILE.enumerate() {
        println!("{number}{}", words(&[by_file[point], whole[point]]));
    }
    println!(
        "files stacked {} {}",
        by_file[FILE_COUNT], whole[FILE_COUNT]
    );

    let two = [files[0], files[2]];
    let (_, left, end) = run_files(memory, start, &two, Rule::PerFile, enough)?;
    let same = yes_or_no(left == by_file && end == machine);
    println!("rule 1 as files 0 and 2 alone: {same}");
    let same = yes_or_no(whole == memory && former == start);
    println!("rule 2 as before: {same}");
    Ok(())
}

fn file(line: &[u32]) -> File<'_> {
    File {
        place: line[0],
        words: &line[FILE_SIZE..][..line[1] as usize],
        entry: line[2],
        count: line[3],
    }
}

/// On a copy: the answer, and the memory and machine that are left.
fn run_files(
    memory: &[u32],
    start: Machine,
    files: &[File],
    rule: Rule,
    places: usize,
) -> Result<(Traverse, Vec<u32>, Machine), Refused> {
    let (mut left, mut machine) = (memory.to_vec(), start);
    let mut journal = vec![0; places];
    let ran = traverse(&mut left, 0, &mut journal, files, &mut machine, rule)?;
    Ok((ran, left, machine))
}

fn print_undone(name: &str, ran: Traverse) {
    let what = if ran.full { "journal full" } else { "undone" };
    match ran.undone {
        Undone::Files(bits) => print!("{name}: {what} {bits:016X}"),
        Undone::Traverse(Some(file)) => print!("{name}: {what} in file {file}"),
        Undone::Traverse(None) => print!("{name}: finished"),
    }
    println!(", {} instructions, {} pairs", ran.ran, ran.pairs);
}

/// The call on plain words takes any version.
fn refuse_version(memory: &[u32], start: Machine, lines: &[Vec<u32>]) {
    let mut machine = [0; MACHINE_SIZE];
    machine[..8].copy_from_slice(&start.registers);
    let files: Vec<File> = lines.iter().map(|line| file(line)).collect();
    let numbers = lines.iter().flat_map(|line| &line[..FILE_SIZE]);
    let words = files.iter().flat_map(|file| file.words);
    let number = library::traverse(
        &mut memory.to_vec(),
        0,
        &mut [],
        &words.copied().collect::<Vec<_>>(),
        &numbers.copied().collect::<Vec<_>>(),
        &mut machine,
        3,
        &mut [0; 3],
    );
    println!("version 3: refused {number}");
}

fn yes_or_no(answer: bool) -> &'static str {
    if answer {
        "yes"
    } else {
        "no"
    }
}

fn words(words: &[u32]) -> String {
    words.iter().map(|word| format!(" {word:08X}")).collect()
}

fn digits(flags: Flags) -> String {
    let all = [flags.carry, flags.overflow, flags.negative, flags.zero];
    all.iter()
        .map(|&flag| if flag { '1' } else { '0' })
        .collect()
}
