//! The same calls through the program that `YUKEMASOP_BRIDGE` names (tests/bridge), over two pipes.
//!
//! The archive is for x86-64. On another host the program runs it under an emulator, so that
//! everything above this module is tried there too.

use crate::ffi::{Answer, Base, Counted, Least, Record};
use std::io::{BufReader, Read, Write};
use std::process::{Child, ChildStdin, ChildStdout, Command, Stdio};
use std::sync::{Mutex, MutexGuard, PoisonError};

struct Bridge {
    _program: Child,
    calls: ChildStdin,
    answers: BufReader<ChildStdout>,
}

impl Bridge {
    fn start() -> Bridge {
        let path = std::env::var_os("YUKEMASOP_BRIDGE")
            .expect("YUKEMASOP_BRIDGE must name the program that tests/bridge/build makes");
        let mut program = Command::new(path)
            .stdin(Stdio::piped())
            .stdout(Stdio::piped())
            .spawn()
            .expect("the program that YUKEMASOP_BRIDGE names must start");
        let calls = program.stdin.take().expect("its input is piped");
        let answers = program.stdout.take().expect("its output is piped");
        Bridge {
            _program: program,
            calls,
            answers: BufReader::new(answers),
        }
    }
}

static BRIDGE: Mutex<Option<Bridge>> = Mutex::new(None);

/// A call being written: its number and its arguments.
struct Call {
    bytes: Vec<u8>,
}

/// What a call answers, read in order; the bridge stays taken until all of it is read.
struct Reply {
    bridge: MutexGuard<'static, Option<Bridge>>,
}

/// The elements of lent buffers, lowest byte first.
trait Element: Copy {
    const WIDTH: usize;
    fn put(self, bytes: &mut Vec<u8>);
    fn get(bytes: &[u8]) -> Self;
}

impl Element for u8 {
    const WIDTH: usize = 1;
    fn put(self, bytes: &mut Vec<u8>) {
        bytes.push(self);
    }
    fn get(bytes: &[u8]) -> u8 {
        bytes[0]
    }
}

impl Element for u16 {
    const WIDTH: usize = 2;
    fn put(self, bytes: &mut Vec<u8>) {
        bytes.extend(self.to_le_bytes());
    }
    fn get(bytes: &[u8]) -> u16 {
        u16::from_le_bytes([bytes[0], bytes[1]])
    }
}

impl Element for i32 {
    const WIDTH: usize = 4;
    fn put(self, bytes: &mut Vec<u8>) {
        bytes.extend(self.to_le_bytes());
    }
    fn get(bytes: &[u8]) -> i32 {
        i32::from_le_bytes([bytes[0], bytes[1], bytes[2], bytes[3]])
    }
}

impl Call {
    fn new(number: usize) -> Call {
        Call { bytes: Vec::new() }.number(number)
    }

    fn number(mut self, value: usize) -> Call {
        self.bytes.extend((value as u64).to_le_bytes());
        self
    }

    fn record(self, record: Record) -> Call {
        self.number(record.length).number(record.gap)
    }

    /// A lent buffer.
    unsafe fn lent<T: Element>(self, at: *const T, count: usize) -> Call {
        let mut call = self.number(count);
        for &element in std::slice::from_raw_parts(at, count) {
            element.put(&mut call.bytes);
        }
        call
    }

    fn make(self) -> Reply {
        let mut bridge = BRIDGE.lock().unwrap_or_else(PoisonError::into_inner);
        bridge
            .get_or_insert_with(Bridge::start)
            .calls
            .write_all(&self.bytes)
            .expect("the bridge takes calls");
        Reply { bridge }
    }

    fn answer(self) -> Answer {
        self.make().answer()
    }
}

impl Reply {
    fn read(&mut self, bytes: &mut [u8]) {
        let bridge = self.bridge.as_mut().expect("the bridge was started");
        bridge
            .answers
            .read_exact(bytes)
            .expect("the bridge answers");
    }

    fn number(&mut self) -> usize {
        let mut bytes = [0; 8];
        self.read(&mut bytes);
        u64::from_le_bytes(bytes) as usize
    }

    fn answer(&mut self) -> Answer {
        Answer {
            number: self.number() as u32,
            place: self.number(),
            value: self.number(),
        }
    }

    fn counted(&mut self) -> Counted {
        Counted {
            number: self.number() as u32,
            place: self.number(),
            record: Record {
                length: self.number(),
                gap: self.number(),
            },
            count: self.number(),
        }
    }

    /// A lent buffer as the call left it.
    unsafe fn back<T: Element>(&mut self, at: *mut T, count: usize) {
        let mut bytes = vec![0; count * T::WIDTH];
        self.read(&mut bytes);
        let elements = std::slice::from_raw_parts_mut(at, count);
        for (element, bytes) in elements.iter_mut().zip(bytes.chunks(T::WIDTH)) {
            *element = T::get(bytes);
        }
    }
}

pub unsafe fn ykm_version() -> u32 {
    Call::new(0).make().number() as u32
}

pub unsafe fn ykm_read_base(byte: u8) -> Base {
    let mut reply = Call::new(1).number(byte.into()).make();
    Base {
        number: reply.number() as u32,
        place: reply.number(),
        letter: reply.number() as u8,
    }
}

pub unsafe fn ykm_can_pair(a: u8, b: u8) -> bool {
    Call::new(2)
        .number(a.into())
        .number(b.into())
        .make()
        .number()
        != 0
}

pub unsafe fn ykm_pair_index(a: u8, b: u8) -> usize {
    Call::new(3)
        .number(a.into())
        .number(b.into())
        .make()
        .number()
}

pub unsafe fn ykm_from_dot_bracket(
    text: *const u8,
    n: usize,
    pairs: *mut u16,
    room: usize,
) -> Answer {
    let mut reply = Call::new(4).lent(text, n).lent(pairs, room).make();
    let answer = reply.answer();
    reply.back(pairs, room);
    answer
}

pub unsafe fn ykm_to_dot_bracket(
    pairs: *const u16,
    n: usize,
    text: *mut u8,
    room: usize,
) -> Answer {
    let mut reply = Call::new(5).lent(pairs, n).lent(text, room).make();
    let answer = reply.answer();
    reply.back(text, room);
    answer
}

pub unsafe fn ykm_base_pairs(pairs: *const u16, n: usize, out: *mut u16, room: usize) -> Answer {
    let mut reply = Call::new(6).lent(pairs, n).lent(out, room).make();
    let answer = reply.answer();
    reply.back(out, room);
    answer
}

pub unsafe fn ykm_is_paired(pairs: *const u16, n: usize, i: usize) -> Answer {
    Call::new(7).lent(pairs, n).number(i).answer()
}

pub unsafe fn ykm_partner(pairs: *const u16, n: usize, i: usize) -> Answer {
    Call::new(8).lent(pairs, n).number(i).answer()
}

pub unsafe fn ykm_num_pairs(pairs: *const u16, n: usize) -> Answer {
    Call::new(9).lent(pairs, n).answer()
}

pub unsafe fn ykm_base_pair_distance(a: *const u16, n: usize, b: *const u16, m: usize) -> Answer {
    Call::new(10).lent(a, n).lent(b, m).answer()
}

pub unsafe fn ykm_mountain_distance(a: *const u16, n: usize, b: *const u16, m: usize) -> Answer {
    Call::new(11).lent(a, n).lent(b, m).answer()
}

// The C call has so many.
#[allow(clippy::too_many_arguments)]
pub unsafe fn ykm_nussinov(
    seq: *const u8,
    n: usize,
    gap: usize,
    bases: *mut u8,
    bases_room: usize,
    cells: *mut u16,
    cells_room: usize,
    pairs: *mut u16,
    pairs_room: usize,
) -> Counted {
    let mut reply = Call::new(12)
        .lent(seq, n)
        .number(gap)
        .lent(bases, bases_room)
        .lent(cells, cells_room)
        .lent(pairs, pairs_room)
        .make();
    let counted = reply.counted();
    reply.back(bases, bases_room);
    reply.back(cells, cells_room);
    reply.back(pairs, pairs_room);
    counted
}

// The C call has so many.
#[allow(clippy::too_many_arguments)]
pub unsafe fn ykm_zuker_mfe(
    seq: *const u8,
    n: usize,
    bases: *mut u8,
    bases_room: usize,
    paired: *mut i32,
    paired_room: usize,
    any: *mut i32,
    any_room: usize,
    arms: *mut i32,
    arms_room: usize,
    pairs: *mut u16,
    pairs_room: usize,
) -> Least {
    let mut reply = Call::new(17)
        .lent(seq, n)
        .lent(bases, bases_room)
        .lent(paired, paired_room)
        .lent(any, any_room)
        .lent(arms, arms_room)
        .lent(pairs, pairs_room)
        .make();
    let least = Least {
        number: reply.number() as u32,
        place: reply.number(),
        energy: reply.number() as i32,
    };
    reply.back(bases, bases_room);
    reply.back(paired, paired_room);
    reply.back(any, any_room);
    reply.back(arms, arms_room);
    reply.back(pairs, pairs_room);
    least
}

pub unsafe fn ykm_replace(
    record: Record,
    bases: *mut u8,
    bases_room: usize,
    cells: *mut u16,
    cells_room: usize,
    position: usize,
    byte: u8,
) -> Counted {
    let mut reply = Call::new(13)
        .record(record)
        .lent(bases, bases_room)
        .lent(cells, cells_room)
        .number(position)
        .number(byte.into())
        .make();
    let counted = reply.counted();
    reply.back(bases, bases_room);
    reply.back(cells, cells_room);
    counted
}

pub unsafe fn ykm_add(
    record: Record,
    bases: *mut u8,
    bases_room: usize,
    cells: *mut u16,
    cells_room: usize,
    byte: u8,
) -> Counted {
    let mut reply = Call::new(14)
        .record(record)
        .lent(bases, bases_room)
        .lent(cells, cells_room)
        .number(byte.into())
        .make();
    let counted = reply.counted();
    reply.back(bases, bases_room);
    reply.back(cells, cells_room);
    counted
}

pub unsafe fn ykm_erase(
    record: Record,
    bases: *const u8,
    bases_room: usize,
    cells: *const u16,
    cells_room: usize,
) -> Counted {
    Call::new(15)
        .record(record)
        .lent(bases, bases_room)
        .lent(cells, cells_room)
        .make()
        .counted()
}

pub unsafe fn ykm_traceback(
    record: Record,
    bases: *const u8,
    bases_room: usize,
    cells: *const u16,
    cells_room: usize,
    pairs: *mut u16,
    pairs_room: usize,
) -> Answer {
    let mut reply = Call::new(16)
        .record(record)
        .lent(bases, bases_room)
        .lent(cells, cells_room)
        .lent(pairs, pairs_room)
        .make();
    let answer = reply.answer();
    reply.back(pairs, pairs_room);
    answer
}
