//! A plain Rust program that does what `update_bench` does, as a yardstick for its speed: tools/speed/run compares the two.
//!
//!     rustc --edition 2021 -O -o plain tools/speed/plain.rs && ./plain < INPUT

use std::io::{self, Read, Write};

const SEGMENT: usize = 512;
const APPROVED: u8 = 0x5A;
const ERASED: u8 = 0xFF;

const HEADER: u8 = 0x80;
const LONGEST_PAYLOAD: usize = 19;

const RX_DATA_BLOCK: u8 = 0x10;
const ERASE_SEGMENT: u8 = 0x12;
const ERASE_APP: u8 = 0x15;
const TX_VERSION: u8 = 0x19;
const JUMP2APP: u8 = 0x1C;

#[derive(Clone, Copy)]
enum Answer {
    Done = 0x00,
    HeaderError = 0x51,
    ChecksumError = 0x52,
    PacketZeroError = 0x53,
    PacketSizeError = 0x54,
    Version = 0xA0,
    InvalidParams = 0xC5,
    IncorrectCommand = 0xC6,
}

#[derive(Clone, Copy)]
enum Refusal {
    BadLayout = 1,
    SupplyLost = 2,
    NotListening = 6,
    MalformedInput = 7,
}

enum Outcome {
    NothingYet,
    Answered(Answer),
    Listens,
    Runs,
    Refused(Refusal),
}

const CCITT_TABLE: [u16; 256] = {
    let mut table = [0; 256];
    let mut byte = 0;
    while byte < 256 {
        let mut register = (byte as u16) << 8;
        let mut shift = 0;
        while shift < 8 {
            register = if register & 0x8000 != 0 { register << 1 ^ 0x1021 } else { register << 1 };
            shift += 1;
        }
        table[byte] = register;
        byte += 1;
    }
    table
};

fn ccitt(bytes: &[u8]) -> u16 {
    bytes.iter().fold(0xFFFF, |sum, &byte| sum << 8 ^ CCITT_TABLE[usize::from((sum >> 8) as u8 ^ byte)])
}

fn startable(area: &[u8]) -> bool {
    let (stored, covered) = area.split_at(2);
    !area.ends_with(&[0xFF, 0xFF]) && u16::from_le_bytes([stored[0], stored[1]]) == ccitt(covered)
}

struct SupplyLost;

enum Kind {
    Flash,
    Fram,
}

struct Cut {
    count: u32,
    pattern: u16,
}

enum Fate {
    Finishes,
    Torn(u16),
}

struct Memory {
    bytes: Vec<u8>,
    kind: Kind,
    cuts: std::vec::IntoIter<Cut>,
    finished: u32,
    on: bool,
}

impl Memory {
    fn new(size: usize, kind: Kind, cuts: Vec<Cut>) -> Self {
        Memory { bytes: vec![ERASED; size], kind, cuts: cuts.into_iter(), finished: 0, on: true }
    }

    #[inline]
    fn begin(&mut self) -> Result<Fate, SupplyLost> {
        if !self.on {
            return Err(SupplyLost);
        }
        if let Some(cut) = self.cuts.as_slice().first() {
            if cut.count == self.finished {
                let pattern = cut.pattern;
                self.cuts.next();
                self.finished = 0;
                self.on = false;
                return Ok(Fate::Torn(pattern));
            }
            self.finished += 1;
        }
        Ok(Fate::Finishes)
    }

    #[inline]
    fn write(&mut self, place: usize, byte: u8) -> Result<(), SupplyLost> {
        let fate = self.begin()?;
        let cell = &mut self.bytes[place];
        match (fate, &self.kind) {
            (Fate::Finishes, Kind::Flash) => *cell &= byte,
            (Fate::Finishes, Kind::Fram) => *cell = byte,
            (Fate::Torn(pattern), Kind::Flash) => {
                *cell &= byte | pattern as u8;
                return Err(SupplyLost);
            }
            (Fate::Torn(_), Kind::Fram) => return Err(SupplyLost),
        }
        Ok(())
    }

    fn erase(&mut self, segment: usize) -> Result<(), SupplyLost> {
        let fate = self.begin()?;
        let cells = &mut self.bytes[SEGMENT * segment..SEGMENT * (segment + 1)];
        match (fate, &self.kind) {
            (Fate::Finishes, _) => {
                cells.fill(ERASED);
                return Ok(());
            }
            (Fate::Torn(pattern), Kind::Flash) => cells.iter_mut().for_each(|cell| *cell |= pattern as u8),
            (Fate::Torn(pattern), Kind::Fram) => cells[..usize::from(pattern) % SEGMENT].fill(ERASED),
        }
        Err(SupplyLost)
    }
}

#[derive(Clone, Copy)]
struct Layout {
    k: usize,
    b: usize,
}

impl Layout {
    fn new(k: u8, b: u8) -> Option<Self> {
        ((1..=48).contains(&k) && (1..=8).contains(&b)).then_some(Layout { k: k.into(), b: b.into() })
    }

    fn size(self) -> usize {
        SEGMENT * (1 + 2 * self.k + self.b)
    }

    fn area_size(self) -> usize {
        SEGMENT * self.k
    }

    fn download(self) -> usize {
        SEGMENT
    }

    fn application(self) -> usize {
        SEGMENT * (1 + self.k)
    }

    /// How far an address lies above the application area's first one.
    fn offset(self, low: u8, high: u8) -> Option<usize> {
        let first = self.application() + 0x10000 - self.size();
        usize::from(u16::from_le_bytes([low, high])).checked_sub(first)
    }
}

#[derive(Clone, Copy, PartialEq)]
enum Phase {
    Waiting,
    Listening,
    Running,
}

struct Controller {
    layout: Layout,
    memory: Memory,
    phase: Phase,
    packet: Vec<u8>,
}

impl Controller {
    fn new(layout: Layout, kind: Kind, cuts: Vec<Cut>) -> Self {
        let memory = Memory::new(layout.size(), kind, cuts);
        Controller { layout, memory, phase: Phase::Waiting, packet: Vec::with_capacity(LONGEST_PAYLOAD + 4) }
    }

    fn wait(&mut self) {
        self.phase = Phase::Waiting;
        self.packet.clear();
    }

    fn area_startable(&self, place: usize) -> bool {
        startable(&self.memory.bytes[place..place + self.layout.area_size()])
    }

    fn restart(&mut self, pin_high: bool, password: u16, status: u8) -> Outcome {
        self.memory.on = true;
        self.wait();
        if self.mend().is_err() {
            return Outcome::Refused(Refusal::SupplyLost);
        }
        let forced = !pin_high || (password == 0xC0DE && status & 1 == 1);
        if !forced && self.area_startable(self.layout.application()) {
            self.phase = Phase::Running;
            Outcome::Runs
        } else {
            self.phase = Phase::Listening;
            Outcome::Listens
        }
    }

    /// Copies an approved image and clears any mark, with the download area.
    fn mend(&mut self) -> Result<(), SupplyLost> {
        let k = self.layout.k;
        let mark = self.memory.bytes[0];
        if mark == APPROVED {
            for i in 0..k {
                self.memory.erase(1 + k + i)?;
                for offset in SEGMENT * i..SEGMENT * (i + 1) {
                    let byte = self.memory.bytes[self.layout.download() + offset];
                    self.memory.write(self.layout.application() + offset, byte)?;
                }
            }
        }
        if mark != ERASED {
            for segment in 0..1 + k {
                self.memory.erase(segment)?;
            }
        }
        Ok(())
    }

    fn receive(&mut self, byte: u8) -> Outcome {
        if self.phase != Phase::Listening {
            return Outcome::Refused(Refusal::NotListening);
        }
        self.packet.push(byte);
        let answer = match self.packet[..] {
            [HEADER] => return Outcome::NothingYet,
            [HEADER, 0, ..] => Answer::PacketZeroError,
            [HEADER, n, ref rest @ ..] => {
                let n = usize::from(n);
                if n > LONGEST_PAYLOAD {
                    Answer::PacketSizeError
                } else if rest.len() < n + 2 {
                    return Outcome::NothingYet;
                } else if ccitt(&rest[..n]) != u16::from_le_bytes([rest[n], rest[n + 1]]) {
                    Answer::ChecksumError
                } else {
                    match self.obey() {
                        Ok(answer) => answer,
                        Err(SupplyLost) => {
                            self.wait();
                            return Outcome::Refused(Refusal::SupplyLost);
                        }
                    }
                }
            }
            _ => Answer::HeaderError,
        };
        self.packet.clear();
        Outcome::Answered(answer)
    }

    /// Obeys the payload of the whole frame that has come in.
    fn obey(&mut self) -> Result<Answer, SupplyLost> {
        let layout = self.layout;
        let payload = &self.packet[2..self.packet.len() - 2];
        match *payload {
            [ERASE_SEGMENT, low, high, ..] => match layout.offset(low, high) {
                Some(offset) if offset < layout.area_size() && offset % SEGMENT == 0 => {
                    self.memory.erase(1 + offset / SEGMENT)?;
                }
                _ => return Ok(Answer::InvalidParams),
            },
            [ERASE_APP, ..] => {
                for i in 0..layout.k {
                    self.memory.erase(1 + i)?;
                }
            }
            [RX_DATA_BLOCK, low, high, ref data @ ..] => match layout.offset(low, high) {
                Some(offset) if !data.is_empty() && offset + data.len() <= layout.area_size() => {
                    for (place, &byte) in (layout.download() + offset..).zip(data) {
                        self.memory.write(place, byte)?;
                    }
                }
                _ => return Ok(Answer::InvalidParams),
            },
            [TX_VERSION, ..] => return Ok(Answer::Version),
            [JUMP2APP, ..] => {
                self.phase = Phase::Waiting;
                if !self.area_startable(layout.download()) {
                    return Ok(Answer::InvalidParams);
                }
                self.memory.write(0, APPROVED)?;
            }
            [ERASE_SEGMENT | RX_DATA_BLOCK, ..] => return Ok(Answer::InvalidParams),
            _ => return Ok(Answer::IncorrectCommand),
        }
        Ok(Answer::Done)
    }
}

struct Input<'a>(&'a [u8]);

impl Input<'_> {
    fn take<const N: usize>(&mut self) -> Result<[u8; N], Refusal> {
        let (taken, rest) = self.0.split_first_chunk().ok_or(Refusal::MalformedInput)?;
        self.0 = rest;
        Ok(*taken)
    }

    /// All that stands before the count of events.
    fn controller(&mut self) -> Result<Controller, Refusal> {
        let [version, k, b, kind] = self.take()?;
        let kind = match (version, kind) {
            (3, 0) => Kind::Flash,
            (3, 1) => Kind::Fram,
            _ => return Err(Refusal::MalformedInput),
        };
        let count = u16::from_le_bytes(self.take()?);
        if count > 64 {
            return Err(Refusal::MalformedInput);
        }
        let cuts = (0..count)
            .map(|_| Ok(Cut { count: u32::from_le_bytes(self.take()?), pattern: u16::from_le_bytes(self.take()?) }))
            .collect::<Result<Vec<_>, _>>()?;
        let layout = Layout::new(k, b).ok_or(Refusal::BadLayout)?;
        Ok(Controller::new(layout, kind, cuts))
    }

    fn event(&mut self, controller: &mut Controller) -> Result<Outcome, Refusal> {
        match self.take()? {
            [0, pin @ (0 | 1), low, high, status] => {
                Ok(controller.restart(pin == 1, u16::from_le_bytes([low, high]), status))
            }
            [1, byte, 0, 0, 0] => Ok(controller.receive(byte)),
            _ => Err(Refusal::MalformedInput),
        }
    }
}

fn push_decimal(output: &mut Vec<u8>, mut number: u16) {
    let mut digits = [0; 5];
    let mut first = digits.len();
    loop {
        first -= 1;
        digits[first] = b'0' + (number % 10) as u8;
        number /= 10;
        if number == 0 {
            break;
        }
    }
    output.extend_from_slice(&digits[first..]);
}

fn push_line(output: &mut Vec<u8>, number: u16, outcome: Outcome) {
    const HEX: &[u8; 16] = b"0123456789ABCDEF";
    let (letter, value) = match outcome {
        Outcome::NothingYet => (b'N', 0),
        Outcome::Answered(answer) => (b'A', answer as u8),
        Outcome::Listens => (b'L', 0),
        Outcome::Runs => (b'S', 0),
        Outcome::Refused(refusal) => (b'R', refusal as u8),
    };
    push_decimal(output, number);
    output.extend_from_slice(&[b' ', letter, b' ', HEX[usize::from(value >> 4)], HEX[usize::from(value & 15)], b'\n']);
}

/// Plays the input. A refusal that ends the run comes with the number of its line.
fn play(mut input: Input, output: &mut Vec<u8>) -> Result<(), (u16, Refusal)> {
    let mut controller = input.controller().map_err(|refusal| (0, refusal))?;
    let count = input.take().map(u16::from_le_bytes).map_err(|refusal| (0, refusal))?;
    for number in 1..=count {
        let outcome = input.event(&mut controller).map_err(|refusal| (number, refusal))?;
        push_line(output, number, outcome);
    }
    Ok(())
}

fn main() -> io::Result<()> {
    let mut input = Vec::new();
    io::stdin().lock().read_to_end(&mut input)?;
    let mut output = Vec::with_capacity(input.len() / 5 * 11 + 16);
    if let Err((number, refusal)) = play(Input(&input), &mut output) {
        push_line(&mut output, number, Outcome::Refused(refusal));
    }
    io::stdout().lock().write_all(&output)
}
