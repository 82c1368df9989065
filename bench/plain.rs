//! The same script language, but for `bump`, and log format in plain Rust, with no tracking, no refusals and no
//! proof.
//!
//! `bench/run` compiles it where there is a `rustc`, and measures it beside the program: it says how
//! much of a time the task itself takes. It takes what is well formed, and panics at all else.
//!
//! plain tidy SCRIPT: the canonical text. plain read SCRIPT: reads it, and says how many commands it
//! has. plain run SCRIPT: one thread after another on plain cells, and the outcome. plain locked SCRIPT
//! LOG: a thread for each, beside each other, with a lock and a log of its own at each object: which
//! thread made each access; and the outcome. plain show LOG: the log's text. plain marks LOG: reads the
//! log, and says the sum of its marks' numbers. plain keep LOG: reads it into memory, as a program does
//! that goes on to use it, and says how many marks it has.

use std::collections::HashMap;
use std::env;
use std::fs;
use std::io::{self, Write};
use std::str;
use std::sync::{Mutex, MutexGuard};
use std::thread;

#[derive(Clone, Copy)]
enum Command {
    Set(u8, u64),
    Copy(u8, u8),
    Calculate(Operation, u8, u8, u8),
    Read(u8, u16),
    Write(u16, u8),
    Loop(u8, u32),
    Branch(u8, u32),
    Close(u32),
    Safe,
    Pause,
    Region,
}

#[derive(Clone, Copy)]
enum Operation {
    Add,
    Sub,
    Mul,
    Xor,
    Less,
    Same,
}

const OPERATIONS: [(&str, Operation); 6] = [
    ("add", Operation::Add),
    ("sub", Operation::Sub),
    ("mul", Operation::Mul),
    ("xor", Operation::Xor),
    ("less", Operation::Less),
    ("same", Operation::Same),
];

struct Script<'t> {
    fuel: u32,
    objects: Vec<(&'t str, u64)>,
    threads: Vec<Vec<Command>>,
}

fn number<N: str::FromStr>(word: &str) -> N {
    word.parse().ok().expect("a number")
}

fn register(word: &str) -> u8 {
    number(&word[1..])
}

fn read_script(text: &str) -> Script<'_> {
    let mut script = Script {
        fuel: 16_384,
        objects: Vec::new(),
        threads: Vec::new(),
    };
    let mut places: HashMap<&str, u16> = HashMap::new();
    let mut open = Vec::new();
    for line in text.split('\n') {
        let line = line.split('#').next().unwrap_or("");
        let mut words = line.split([' ', '\t', '\r']).filter(|word| !word.is_empty());
        let Some(first) = words.next() else { continue };
        let mut next = || words.next().expect("a word");
        let command = match first {
            "fuel" => {
                script.fuel = number(next());
                continue;
            }
            "object" => {
                let name = next();
                places.insert(name, script.objects.len() as u16);
                script.objects.push((name, number(next())));
                continue;
            }
            "thread" => {
                script.threads.push(Vec::new());
                continue;
            }
            "set" => Command::Set(register(next()), number(next())),
            "copy" => Command::Copy(register(next()), register(next())),
            "read" => Command::Read(register(next()), places[next()]),
            "write" => Command::Write(places[next()], register(next())),
            "while" => Command::Loop(register(next()), 0),
            "if" => Command::Branch(register(next()), 0),
            "end" => Command::Close(0),
            "safe" => Command::Safe,
            "pause" => Command::Pause,
            "region" => Command::Region,
            word => {
                let (_, operation) = OPERATIONS.iter().find(|pair| pair.0 == word).expect("a command");
                Command::Calculate(*operation, register(next()), register(next()), register(next()))
            }
        };
        let thread = script.threads.last_mut().expect("a thread");
        let place = thread.len();
        thread.push(command);
        match command {
            Command::Loop(..) | Command::Branch(..) => open.push(place),
            Command::Close(_) => close(thread, open.pop().expect("an open command"), place),
            _ => {}
        }
    }
    script
}

/// The opener leads past its end, and the end of a loop leads back.
fn close(thread: &mut [Command], opener: usize, place: usize) {
    let past = place as u32 + 1;
    let back = match &mut thread[opener] {
        Command::Loop(_, end) => {
            *end = past;
            opener as u32
        }
        Command::Branch(_, end) => {
            *end = past;
            past
        }
        _ => unreachable!("only these are open"),
    };
    thread[place] = Command::Close(back);
}

fn write_script(script: &Script, out: &mut Vec<u8>) -> io::Result<()> {
    writeln!(out, "fuel {}", script.fuel)?;
    for (name, value) in &script.objects {
        writeln!(out, "object {name} {value}")?;
    }
    for thread in &script.threads {
        writeln!(out, "thread")?;
        for command in thread {
            match *command {
                Command::Set(to, value) => writeln!(out, "set r{to} {value}")?,
                Command::Copy(to, from) => writeln!(out, "copy r{to} r{from}")?,
                Command::Calculate(operation, to, left, right) => {
                    let word = OPERATIONS[operation as usize].0;
                    writeln!(out, "{word} r{to} r{left} r{right}")?
                }
                Command::Read(to, object) => writeln!(out, "read r{to} {}", script.objects[object as usize].0)?,
                Command::Write(object, from) => writeln!(out, "write {} r{from}", script.objects[object as usize].0)?,
                Command::Loop(test, _) => writeln!(out, "while r{test}")?,
                Command::Branch(test, _) => writeln!(out, "if r{test}")?,
                Command::Close(_) => writeln!(out, "end")?,
                Command::Safe => writeln!(out, "safe")?,
                Command::Pause => writeln!(out, "pause")?,
                Command::Region => writeln!(out, "region")?,
            }
        }
    }
    Ok(())
}

fn calculated(operation: Operation, left: u64, right: u64) -> u64 {
    match operation {
        Operation::Add => left.wrapping_add(right),
        Operation::Sub => left.wrapping_sub(right),
        Operation::Mul => left.wrapping_mul(right),
        Operation::Xor => left ^ right,
        Operation::Less => u64::from(left < right),
        Operation::Same => u64::from(left == right),
    }
}

/// What the accesses of a thread go to.
trait Heap {
    fn read(&mut self, object: u16) -> u64;
    fn write(&mut self, object: u16, value: u64);
}

struct Cells {
    values: Vec<u64>,
}

impl Heap for Cells {
    fn read(&mut self, object: u16) -> u64 {
        self.values[object as usize]
    }

    fn write(&mut self, object: u16, value: u64) {
        self.values[object as usize] = value;
    }
}

/// A value, and which thread made each access of it.
struct Logged {
    value: u64,
    log: Vec<u8>,
}

/// The objects as one thread sees them.
struct Locked<'o> {
    thread: u8,
    objects: &'o [Mutex<Logged>],
}

impl Locked<'_> {
    fn access(&mut self, object: u16) -> MutexGuard<'_, Logged> {
        let mut logged = self.objects[object as usize].lock().expect("a lock");
        logged.log.push(self.thread);
        logged
    }
}

impl Heap for Locked<'_> {
    fn read(&mut self, object: u16) -> u64 {
        self.access(object).value
    }

    fn write(&mut self, object: u16, value: u64) {
        self.access(object).value = value;
    }
}

/// Runs one thread to its end, and says whether that was its last command.
fn run_thread<H: Heap>(commands: &[Command], mut fuel: u32, heap: &mut H, seen: &mut Vec<u64>) -> bool {
    let mut registers = [0u64; 16];
    let mut place = 0;
    while place < commands.len() {
        if fuel == 0 {
            return false;
        }
        fuel -= 1;
        let mut next = place + 1;
        match commands[place] {
            Command::Set(to, value) => registers[to as usize] = value,
            Command::Copy(to, from) => registers[to as usize] = registers[from as usize],
            Command::Calculate(operation, to, left, right) => {
                registers[to as usize] = calculated(operation, registers[left as usize], registers[right as usize]);
            }
            Command::Read(to, object) => {
                let value = heap.read(object);
                seen.push(value);
                registers[to as usize] = value;
            }
            Command::Write(object, from) => heap.write(object, registers[from as usize]),
            Command::Loop(test, past) | Command::Branch(test, past) if registers[test as usize] == 0 => {
                next = past as usize;
            }
            Command::Close(back) => next = back as usize,
            Command::Loop(..) | Command::Branch(..) | Command::Safe | Command::Pause | Command::Region => {}
        }
        place = next;
    }
    true
}

/// How a thread ended, and what it has read.
type Run = (bool, Vec<u64>);

fn write_outcome(script: &Script, runs: &[Run], values: &[u64], out: &mut Vec<u8>) -> io::Result<()> {
    for (number, (done, seen)) in runs.iter().enumerate() {
        write!(out, "thread {number} {}", if *done { "done" } else { "spent" })?;
        for value in seen {
            write!(out, " {value}")?;
        }
        writeln!(out)?;
    }
    for ((name, _), value) in script.objects.iter().zip(values) {
        writeln!(out, "object {name} {value}")?;
    }
    Ok(())
}

fn run_one<H: Heap>(script: &Script, commands: &[Command], heap: &mut H) -> Run {
    let mut seen = Vec::with_capacity(script.fuel as usize);
    let done = run_thread(commands, script.fuel, heap, &mut seen);
    (done, seen)
}

fn run_script(script: &Script, out: &mut Vec<u8>) -> io::Result<()> {
    let mut cells = Cells { values: script.objects.iter().map(|object| object.1).collect() };
    let runs: Vec<Run> = script.threads.iter().map(|commands| run_one(script, commands, &mut cells)).collect();
    write_outcome(script, &runs, &cells.values, out)
}

/// The log has the objects in order: how many accesses, in four bytes, and a byte for each.
fn run_locked(script: &Script, log: &str, out: &mut Vec<u8>) -> io::Result<()> {
    let objects: Vec<Mutex<Logged>> =
        script.objects.iter().map(|object| Mutex::new(Logged { value: object.1, log: Vec::new() })).collect();
    let runs: Vec<Run> = thread::scope(|scope| {
        let mut started = Vec::new();
        for (number, commands) in script.threads.iter().enumerate() {
            let mut heap = Locked { thread: number as u8, objects: &objects };
            started.push(scope.spawn(move || run_one(script, commands, &mut heap)));
        }
        started.into_iter().map(|thread| thread.join().expect("a thread")).collect()
    });
    let mut bytes = Vec::new();
    let mut values = Vec::new();
    for object in objects {
        let logged = object.into_inner().expect("a lock");
        bytes.extend((logged.log.len() as u32).to_be_bytes());
        bytes.extend(logged.log);
        values.push(logged.value);
    }
    fs::write(log, bytes)?;
    write_outcome(script, &runs, &values, out)
}

/// The bytes of a log from a place on.
struct Fields<'b> {
    bytes: &'b [u8],
}

impl Fields<'_> {
    fn next<const SIZE: usize>(&mut self) -> [u8; SIZE] {
        let (field, rest) = self.bytes.split_at(SIZE);
        self.bytes = rest;
        field.try_into().expect("a field")
    }

    fn next_u32(&mut self) -> u32 {
        u32::from_be_bytes(self.next())
    }
}

#[allow(dead_code)]
enum Mark {
    Join { from: u8, upto: u64 },
    Draw { number: u64 },
    Fence { number: u64 },
}

/// The marks of each thread with their gaps.
fn keep_log(bytes: &[u8]) -> Vec<Vec<(u32, Mark)>> {
    let mut fields = Fields { bytes: &bytes[6..] };
    let mut threads = Vec::new();
    for _ in 0..bytes[5] {
        let (_accesses, count) = (fields.next_u32(), fields.next_u32());
        let mut marks = Vec::with_capacity(count as usize);
        for _ in 0..count {
            let [kind] = fields.next();
            let gap = fields.next_u32();
            let [from] = fields.next();
            let number = u64::from_be_bytes(fields.next());
            let mark = match kind {
                1 => Mark::Join { from, upto: number },
                2 => Mark::Draw { number },
                _ => Mark::Fence { number },
            };
            marks.push((gap, mark));
        }
        threads.push(marks);
    }
    threads
}

/// Writes the log's text, or where it is not asked for, only adds up the numbers of the marks.
fn read_log(bytes: &[u8], shows: bool, out: &mut Vec<u8>) -> io::Result<u64> {
    let mut fields = Fields { bytes: &bytes[6..] };
    let mut sum = 0u64;
    writeln!(out, "threads {}", bytes[5])?;
    for thread in 0..bytes[5] {
        let (accesses, marks) = (fields.next_u32(), fields.next_u32());
        writeln!(out, "thread {thread} accesses {accesses} marks {marks}")?;
        for _ in 0..marks {
            let [kind] = fields.next();
            let gap = fields.next_u32();
            let [other] = fields.next();
            let number = u64::from_be_bytes(fields.next());
            match kind {
                _ if !shows => sum = sum.wrapping_add(number),
                1 => writeln!(out, "gap {gap} join {other} {number}")?,
                2 => writeln!(out, "gap {gap} draw {number}")?,
                _ => writeln!(out, "gap {gap} fence {number}")?,
            }
        }
    }
    Ok(sum)
}

fn main() -> io::Result<()> {
    let words: Vec<String> = env::args().collect();
    let bytes = fs::read(&words[2])?;
    let text = || str::from_utf8(&bytes).expect("UTF-8");
    let mut out = Vec::new();
    match words[1].as_str() {
        "tidy" => write_script(&read_script(text()), &mut out)?,
        "run" => run_script(&read_script(text()), &mut out)?,
        "locked" => run_locked(&read_script(text()), &words[3], &mut out)?,
        "read" => {
            let commands: usize = read_script(text()).threads.iter().map(Vec::len).sum();
            writeln!(out, "commands {commands}")?;
        }
        "show" => drop(read_log(&bytes, true, &mut out)?),
        "marks" => {
            let sum = read_log(&bytes, false, &mut Vec::new())?;
            writeln!(out, "sum {sum}")?;
        }
        "keep" => {
            let marks: usize = keep_log(&bytes).iter().map(Vec::len).sum();
            writeln!(out, "marks {marks}")?;
        }
        _ => panic!("no such word"),
    }
    io::stdout().write_all(&out)
}
