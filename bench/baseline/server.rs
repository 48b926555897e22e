//! An unproved server of the same protocol, tuned by hand. It creates objects of one coclass, and puts and gets a property of type long. As records in memory
//! it has the requests of `values.rs`, too; it refuses all others. `bench/baseline.py` compares its instructions with those of `oaut`; it is no part of the program.
//!
//!     rustc --edition 2021 -C opt-level=3 -C panic=abort -C target-cpu=x86-64-v2 server.rs
//!     ./server [--hex | --shared] [--store STORE] <requests >replies
//!
//! STORE is a file that `oaut format` has just made. Its groups have up to 1,024 requests, with the bytes and the two syncs of the program. The server
//! makes no checkpoints, so it ends when the bank is full, and it opens no store that has groups.
#[cfg(target_arch = "x86_64")]
use std::arch::x86_64::*;
use std::collections::BTreeMap;
use std::fs::File;
use std::io::{self, Read, Write};
use std::os::fd::AsFd;
use std::os::unix::fs::FileExt;

mod values;

const S_OK: u32 = 0;
const BAD_STUB: u32 = 0x8007_06F7;
const DISCONNECTED: u32 = 0x8001_0108;
const NO_INTERFACE: u32 = 0x8000_4002;
const NOT_IMPLEMENTED: u32 = 0x8000_4001;
const MEMBER_NOT_FOUND: u32 = 0x8002_0003;
const UNKNOWN_INTERFACE: u32 = 0x8002_0001;
const TYPE_MISMATCH: u32 = 0x8002_0005;

const MOST_BYTES: usize = 4_194_304;
const GONE: u64 = u64::MAX;
const ROOM: usize = 1 << 16;
const MOST_FRAME: usize = 1_048_576;
const ALL_CLIENTS: u32 = u32::MAX;
const NEAR: usize = 4_096;
const GROUP: usize = 1_024;

const BODY: u64 = 33_562_624;
const HEADS: [u64; 2] = [8_192, 16_785_408];
const INTERFACE: [u8; 16] = [0x44, 0x33, 0x22, 0x11, 0x66, 0x55, 0x88, 0x77, 0x99, 0xAA, 0xBB, 0xCC, 0xDD, 0xEE, 0xFF, 2];

const CREATE: u16 = 1;
const INVOKE: u16 = 4;
const GET: u16 = 2;
const PUT: u16 = 4;
const NEW_VALUE: u32 = -3i32 as u32;
const COUNT: u32 = 1;
const I4: u16 = 3;

fn u16_at(bytes: &[u8], at: usize) -> u16 {
    u16::from_le_bytes(bytes[at..at + 2].try_into().unwrap())
}

fn u32_at(bytes: &[u8], at: usize) -> u32 {
    u32::from_le_bytes(bytes[at..at + 4].try_into().unwrap())
}

fn is_zero(bytes: &[u8], at: usize) -> bool {
    u128::from_le_bytes(bytes[at..at + 16].try_into().unwrap()) == 0
}

/// The bytes of a reply: 16, and 32 more where it tells a value.
struct Reply {
    bytes: [u8; 48],
    len: usize,
}

impl Reply {
    fn bare(tag: u32, code: u32) -> Reply {
        let mut bytes = [0; 48];
        bytes[0..4].copy_from_slice(&tag.to_le_bytes());
        bytes[4..8].copy_from_slice(&code.to_le_bytes());
        bytes[8..12].copy_from_slice(&u32::MAX.to_le_bytes());
        Reply { bytes, len: 16 }
    }

    fn number(tag: u32, number: u32) -> Reply {
        let mut reply = Reply::bare(tag, S_OK);
        reply.bytes[16..20].copy_from_slice(&number.to_le_bytes());
        reply.len = 24;
        reply
    }

    fn value(tag: u32, value: u32) -> Reply {
        let mut reply = Reply::bare(tag, S_OK);
        reply.set_value(value);
        reply
    }

    fn set_value(&mut self, value: u32) {
        self.bytes[16] = 24;
        self.bytes[24] = 3;
        self.bytes[32] = I4 as u8;
        self.bytes[40] = I4 as u8;
        self.bytes[44..48].copy_from_slice(&value.to_le_bytes());
        self.len = 48;
    }
}

/// The log records of the group that is not committed yet, behind the length of the group, and the place of its gate.
struct Journal {
    file: File,
    gate: u64,
    end: u64,
    group: Vec<u8>,
    len: usize,
}

impl Journal {
    /// Opens a store that `oaut format` has just made.
    fn open(path: &str) -> io::Result<Journal> {
        let file = File::options().read(true).write(true).open(path)?;
        file.sync_data()?;
        let (mut flag, mut selector, mut head) = ([0], [0], [0; 32]);
        file.read_exact_at(&mut flag, 0)?;
        file.read_exact_at(&mut selector, 4_096)?;
        let bank = usize::from(selector[0] & 1);
        file.read_exact_at(&mut head, HEADS[bank])?;
        assert!(flag[0] == 1 && head[..8] == *b"OAUTBK02" && u32_at(&head, 16) == 8, "this is no new store");
        let size = u64::from(u32_at(&head, 20));
        let body = BODY + bank as u64 * size;
        let gate = body + u64::from(u32_at(&head, 12)) + 8;
        file.read_exact_at(&mut flag, gate)?;
        assert!(flag[0] != 1, "this store has groups");
        // the longest group has a put in each request
        Ok(Journal { file, gate, end: body + size, group: vec![0; 4 + GROUP * 33 + 1], len: 4 })
    }

    fn add<const N: usize>(&mut self, record: &[u8; N]) {
        self.group[self.len..self.len + N].copy_from_slice(record);
        self.len += N;
    }

    fn create(&mut self, number: u32, coclass: &[u8]) {
        let mut record = [0; 21];
        record[0] = 1;
        record[1..5].copy_from_slice(&number.to_le_bytes());
        record[5..21].copy_from_slice(coclass);
        self.add(&record);
    }

    fn put(&mut self, number: u32, value: u32) {
        let mut record = [0; 33];
        record[0] = 3;
        record[1..5].copy_from_slice(&number.to_le_bytes());
        record[5..21].copy_from_slice(&INTERFACE);
        record[21..25].copy_from_slice(&COUNT.to_le_bytes());
        record[27..29].copy_from_slice(&I4.to_le_bytes());
        record[29..33].copy_from_slice(&value.to_le_bytes());
        self.add(&record);
    }

    fn commit(&mut self) -> io::Result<()> {
        if self.len == 4 {
            return Ok(());
        }
        let next = self.gate + 1 + self.len as u64;
        assert!(next < self.end, "the bank is full");
        let size = (self.len - 4) as u32;
        self.group[..4].copy_from_slice(&size.to_le_bytes());
        self.group[self.len] = 0;
        self.file.write_all_at(&self.group[..self.len + 1], self.gate + 1)?;
        self.file.sync_data()?;
        self.file.write_all_at(&[1], self.gate)?;
        self.file.sync_data()?;
        (self.gate, self.len) = (next, 4);
        Ok(())
    }
}

/// The values of the long, by the objects' numbers from 1 on; GONE of a released object. What else objects have may be there for the first of them alone.
struct Server {
    values: Vec<u64>,
    others: Vec<values::More>,
    journal: Option<Journal>,
}

impl Server {
    fn answer(&mut self, body: &[u8]) -> Reply {
        if body.len() < 8 {
            return Reply::bare(0, BAD_STUB);
        }
        let tag = u32_at(body, 0);
        match u16_at(body, 4) {
            CREATE if body.len() == 24 => {
                self.values.push(0);
                let number = self.values.len() as u32;
                if let Some(journal) = &mut self.journal {
                    journal.create(number, &body[8..24]);
                }
                Reply::number(tag, number)
            }
            INVOKE if body.len() >= 64 && u32_at(body, 12) == COUNT => self.invoke(tag, body),
            _ => self.answer_other(tag, body),
        }
    }

    fn invoke(&mut self, tag: u32, body: &[u8]) -> Reply {
        let place = (u32_at(body, 8) as usize).wrapping_sub(1);
        let (arguments, named) = (u32_at(body, 56), u32_at(body, 60));
        let Some(held) = self.values.get_mut(place).filter(|it| **it != GONE) else {
            return Reply::bare(tag, DISCONNECTED);
        };
        if !is_zero(body, 16) {
            return Reply::bare(tag, NO_INTERFACE);
        }
        if !is_zero(body, 32) {
            return Reply::bare(tag, UNKNOWN_INTERFACE);
        }
        match u16_at(body, 52) {
            GET if arguments == 0 && named == 0 && body.len() == 64 => Reply::value(tag, *held as u32),
            PUT if arguments == 1 && named == 1 && body.len() == 104 => {
                if u32_at(body, 64) != NEW_VALUE || u32_at(body, 72) != 24 {
                    return Reply::bare(tag, BAD_STUB);
                }
                if u16_at(body, 88) != I4 || u32_at(body, 96) != I4 as u32 {
                    return Reply::bare(tag, TYPE_MISMATCH);
                }
                let value = u32_at(body, 100);
                *held = u64::from(value);
                if let Some(journal) = &mut self.journal {
                    journal.put(place as u32 + 1, value);
                }
                Reply::bare(tag, S_OK)
            }
            _ => Reply::bare(tag, NOT_IMPLEMENTED),
        }
    }
}

/// The values of 16 digits, and whether they are digits: 16 or more stands for what is none.
#[target_feature(enable = "ssse3")]
fn values_of(digits: __m128i) -> __m128i {
    let shifted = _mm_add_epi8(digits, _mm_set1_epi8((255 - b'9') as i8));
    let number = _mm_sub_epi8(_mm_subs_epu8(shifted, _mm_set1_epi8(6)), _mm_set1_epi8(0xF0u8 as i8));
    let upper = _mm_and_si128(digits, _mm_set1_epi8(0xDFu8 as i8));
    let letter = _mm_adds_epu8(_mm_sub_epi8(upper, _mm_set1_epi8(b'A' as i8)), _mm_set1_epi8(10));
    _mm_min_epu8(number, letter)
}

/// Decodes a line into the front of a buffer that has room for 16 bytes more, and answers how many bytes it has; None where it is the digits of none.
#[target_feature(enable = "ssse3")]
fn decode(line: &[u8], out: &mut [u8]) -> Option<usize> {
    let count = line.len() / 2;
    if line.len() % 2 != 0 || out.len() < count + 16 {
        return None;
    }
    let mut worst = _mm_setzero_si128();
    let mut at = 0;
    while at < count {
        // the last block may have bytes behind the line, which are taken for zeros
        let mut last = [b'0'; 32];
        let block: &[u8; 32] = match line[2 * at..].first_chunk() {
            Some(block) => block,
            None => {
                last[..line.len() - 2 * at].copy_from_slice(&line[2 * at..]);
                &last
            }
        };
        // SAFETY: 32 bytes are read of an array of 32, and 16 are written where the buffer has 16 more than the line's.
        unsafe {
            let low = values_of(_mm_loadu_si128(block.as_ptr().cast()));
            let high = values_of(_mm_loadu_si128(block.as_ptr().add(16).cast()));
            worst = _mm_max_epu8(worst, _mm_max_epu8(low, high));
            let weights = _mm_set1_epi16(0x0110);
            let pairs = _mm_packus_epi16(_mm_maddubs_epi16(low, weights), _mm_maddubs_epi16(high, weights));
            _mm_storeu_si128(out.as_mut_ptr().add(at).cast(), pairs);
        }
        at += 16;
    }
    let good = _mm_cmpeq_epi8(_mm_max_epu8(worst, _mm_set1_epi8(15)), _mm_set1_epi8(15));
    (_mm_movemask_epi8(good) == 0xFFFF).then_some(count)
}

/// Writes the digits of a reply's 48 bytes to a buffer that has room for 96.
#[target_feature(enable = "ssse3")]
fn encode(bytes: &[u8; 48], out: &mut [u8]) {
    assert!(out.len() >= 96);
    for part in 0..3 {
        // SAFETY: 16 bytes are read of 48, and 32 are written of 96.
        unsafe {
            let digits = _mm_loadu_si128(b"0123456789abcdef".as_ptr().cast());
            let some = _mm_loadu_si128(bytes.as_ptr().add(16 * part).cast());
            let mask = _mm_set1_epi8(15);
            let high = _mm_shuffle_epi8(digits, _mm_and_si128(_mm_srli_epi16(some, 4), mask));
            let low = _mm_shuffle_epi8(digits, _mm_and_si128(some, mask));
            _mm_storeu_si128(out.as_mut_ptr().add(32 * part).cast(), _mm_unpacklo_epi8(high, low));
            _mm_storeu_si128(out.as_mut_ptr().add(32 * part + 16).cast(), _mm_unpackhi_epi8(high, low));
        }
    }
}

/// The place of the first line feed.
#[target_feature(enable = "ssse3")]
fn line_end(bytes: &[u8]) -> Option<usize> {
    let feed = _mm_set1_epi8(b'\n' as i8);
    let (chunks, rest) = bytes.as_chunks::<16>();
    for (at, chunk) in chunks.iter().enumerate() {
        // SAFETY: 16 bytes are read of an array of 16.
        let found = unsafe { _mm_movemask_epi8(_mm_cmpeq_epi8(_mm_loadu_si128(chunk.as_ptr().cast()), feed)) };
        if found != 0 {
            return Some(16 * at + found.trailing_zeros() as usize);
        }
    }
    rest.iter().position(|it| *it == b'\n').map(|at| bytes.len() - rest.len() + at)
}

/// How requests and replies are framed.
#[derive(Clone, Copy, PartialEq)]
enum Framing {
    Lines,
    Records,
    Frames,
}

/// The replies that were not written yet, and the count of requests since the last commit.
struct Out {
    to: File,
    bytes: Vec<u8>,
    len: usize,
    framing: Framing,
    pending: usize,
}

impl Out {
    fn write(&mut self) -> io::Result<()> {
        self.to.write_all(&self.bytes[..self.len])?;
        self.len = 0;
        Ok(())
    }

    /// Commits the group, and writes its replies.
    fn commit(&mut self, server: &mut Server) -> io::Result<()> {
        self.pending = 0;
        if let Some(journal) = &mut server.journal {
            journal.commit()?;
        }
        self.write()
    }

    fn put(&mut self, server: &mut Server, client: u32, reply: &Reply) -> io::Result<()> {
        if reply.len > 48 {
            return self.put_long(server, reply);
        }
        let room = &mut self.bytes[self.len..];
        match self.framing {
            Framing::Lines => {
                // SAFETY: `main` has found that the processor has SSSE3.
                unsafe { encode(&reply.bytes, room) };
                room[2 * reply.len] = b'\n';
                self.len += 2 * reply.len + 1;
            }
            Framing::Records => {
                room[..4].copy_from_slice(&(reply.len as u32).to_le_bytes());
                room[4..52].copy_from_slice(&reply.bytes);
                self.len += 4 + reply.len;
            }
            Framing::Frames => {
                room[..4].copy_from_slice(&client.to_le_bytes());
                room[4..8].copy_from_slice(&(4 + reply.len as u32).to_le_bytes());
                room[8..12].copy_from_slice(&(reply.len as u32).to_le_bytes());
                room[12..60].copy_from_slice(&reply.bytes);
                self.len += 12 + reply.len;
            }
        }
        self.turn(server)
    }

    /// A client's stream has ended.
    fn end(&mut self, server: &mut Server, client: u32) -> io::Result<()> {
        let room = &mut self.bytes[self.len..];
        room[..4].copy_from_slice(&client.to_le_bytes());
        room[4..8].copy_from_slice(&[0; 4]);
        self.len += 8;
        self.turn(server)
    }

    fn turn(&mut self, server: &mut Server) -> io::Result<()> {
        self.pending += 1;
        if server.journal.is_some() {
            if self.pending == GROUP { self.commit(server) } else { Ok(()) }
        } else if self.bytes.len() - self.len < 128 {
            self.write()
        } else {
            Ok(())
        }
    }
}

/// A client of a session of frames: the bytes of a record whose last ones have not come, and whether its stream has ended.
#[derive(Default)]
struct Client {
    is_there: bool,
    has_ended: bool,
    begun: Vec<u8>,
}

/// The clients by their numbers.
struct Clients {
    near: Vec<Client>,
    far: BTreeMap<u32, Client>,
}

impl Clients {
    fn of(&mut self, number: u32) -> &mut Client {
        let client = match self.near.get_mut(number as usize) {
            Some(client) => client,
            None => self.far.entry(number).or_default(),
        };
        client.is_there = true;
        client
    }

    fn end(&mut self, number: u32) {
        match self.near.get_mut(number as usize) {
            Some(client) => *client = Client::default(),
            None => {
                self.far.remove(&number);
            }
        }
    }
}

/// Answers the records of a client's bytes.
fn take(server: &mut Server, clients: &mut Clients, out: &mut Out, number: u32, bytes: &[u8]) -> io::Result<()> {
    let client = clients.of(number);
    if client.has_ended {
        return Ok(());
    }
    if client.begun.is_empty() {
        let rest = records(server, out, number, bytes)?;
        return keep(client, server, out, number, rest);
    }
    let mut begun = std::mem::take(&mut client.begun);
    begun.extend_from_slice(bytes);
    let rest = records(server, out, number, &begun)?;
    keep(client, server, out, number, rest)
}

/// Answers the whole records at the front of a client's bytes, and returns the bytes behind them.
fn records<'b>(server: &mut Server, out: &mut Out, number: u32, mut bytes: &'b [u8]) -> io::Result<&'b [u8]> {
    while let Some(head) = bytes.first_chunk() {
        let len = u32::from_le_bytes(*head) as usize;
        if len == 0 || len > MOST_BYTES || bytes.len() < 4 + len {
            break;
        }
        let reply = server.answer(&bytes[4..4 + len]);
        out.put(server, number, &reply)?;
        bytes = &bytes[4 + len..];
    }
    Ok(bytes)
}

/// Keeps the bytes of a record that is not whole, or ends the stream at a length that is none.
fn keep(client: &mut Client, server: &mut Server, out: &mut Out, number: u32, rest: &[u8]) -> io::Result<()> {
    if rest.is_empty() {
        return Ok(());
    }
    let len = rest.first_chunk().map_or(1, |it| u32::from_le_bytes(*it) as usize);
    if len == 0 || len > MOST_BYTES {
        client.has_ended = true;
        if len > MOST_BYTES {
            out.put(server, number, &Reply::bare(0, BAD_STUB))?;
        }
        return out.end(server, number);
    }
    client.begun.extend_from_slice(rest);
    Ok(())
}

/// Ends a client's stream.
fn leave(server: &mut Server, clients: &mut Clients, out: &mut Out, number: u32) -> io::Result<()> {
    let client = clients.of(number);
    let (has_ended, is_cut) = (client.has_ended, !client.begun.is_empty());
    clients.end(number);
    if has_ended {
        return Ok(());
    }
    if is_cut {
        out.put(server, number, &Reply::bare(0, BAD_STUB))?;
    }
    out.end(server, number)
}

/// The input, and the part of it that was read and not yet answered.
struct Input {
    bytes: Vec<u8>,
    from: usize,
    to: usize,
}

impl Input {
    /// Reads more, where so many bytes are wanted; false at the end.
    fn more(&mut self, input: &mut impl Read, wanted: usize) -> io::Result<bool> {
        if self.from > 0 {
            self.bytes.copy_within(self.from..self.to, 0);
            (self.from, self.to) = (0, self.to - self.from);
        }
        let most = (self.to + ROOM).max(wanted).min(self.bytes.len());
        let count = input.read(&mut self.bytes[self.to..most])?;
        self.to += count;
        Ok(count != 0)
    }
}

fn main() -> io::Result<()> {
    let mut words = std::env::args().skip(1);
    let (mut framing, mut journal) = (Framing::Records, None);
    while let Some(word) = words.next() {
        match word.as_str() {
            "--hex" => framing = Framing::Lines,
            "--shared" => framing = Framing::Frames,
            "--store" => journal = Some(Journal::open(&words.next().expect("a store's path"))?),
            _ => panic!("{word}: no option of this server"),
        }
    }
    assert!(is_x86_feature_detected!("ssse3"), "this server wants SSSE3");
    let mut server = Server { values: Vec::new(), others: Vec::new(), journal };
    // a group's replies have up to 64 bytes each
    let to = File::from(io::stdout().as_fd().try_clone_to_owned()?);
    let mut out = Out { to, bytes: vec![0; ROOM.max(64 * GROUP + 128)], len: 0, framing, pending: 0 };
    let mut input = Input { bytes: vec![0; ROOM.max(2 * MOST_BYTES + 2)], from: 0, to: 0 };
    let mut stdin = io::stdin().lock();
    match framing {
        Framing::Frames => serve_frames(&mut server, &mut out, &mut input, &mut stdin)?,
        _ => serve_one(&mut server, &mut out, &mut input, &mut stdin)?,
    }
    out.commit(&mut server)
}

/// A session of lines or of records.
fn serve_one(server: &mut Server, out: &mut Out, input: &mut Input, stdin: &mut impl Read) -> io::Result<()> {
    let hex = out.framing == Framing::Lines;
    let mut body = vec![0; MOST_BYTES + 16];
    loop {
        let front = &input.bytes[input.from..input.to];
        let whole = if hex {
            // SAFETY: `main` has found that the processor has SSSE3.
            unsafe { line_end(front) }.map(|at| (0, at, at + 1))
        } else {
            let len = front.first_chunk().map(|it| u32::from_le_bytes(*it) as usize);
            len.filter(|it| *it <= MOST_BYTES && front.len() >= 4 + it).map(|it| (4, 4 + it, 4 + it))
        };
        let Some((start, end, next)) = whole else {
            if server.journal.is_none() {
                out.write()?;
            }
            let wanted = front.first_chunk().map_or(0, |it| 4 + u32::from_le_bytes(*it) as usize);
            if !input.more(stdin, if hex { 0 } else { wanted })? {
                return Ok(());
            }
            continue;
        };
        let reply = if hex {
            // SAFETY: the processor has SSSE3.
            match unsafe { decode(&front[..end], &mut body) } {
                Some(0) | None => return Ok(()),
                Some(count) => server.answer(&body[..count]),
            }
        } else if end == 4 {
            return Ok(());
        } else {
            server.answer(&front[start..end])
        };
        out.put(server, 0, &reply)?;
        input.from += next;
    }
}

/// A session of the frames of many clients.
fn serve_frames(server: &mut Server, out: &mut Out, input: &mut Input, stdin: &mut impl Read) -> io::Result<()> {
    let mut clients = Clients { near: Vec::new(), far: BTreeMap::new() };
    clients.near.resize_with(NEAR, Client::default);
    loop {
        let front = &input.bytes[input.from..input.to];
        let head = front.first_chunk::<8>().map(|it| (u32_at(it, 0), u32_at(it, 4) as usize));
        let Some((number, len)) = head.filter(|(_, len)| *len > MOST_FRAME || front.len() >= 8 + len) else {
            if server.journal.is_none() {
                out.write()?;
            }
            if !input.more(stdin, 0)? {
                break;
            }
            continue;
        };
        if len > MOST_FRAME || number == ALL_CLIENTS && len != 0 {
            break;
        }
        if number == ALL_CLIENTS {
            out.commit(server)?;
        } else if len == 0 {
            leave(server, &mut clients, out, number)?;
        } else {
            take(server, &mut clients, out, number, &front[8..8 + len])?;
        }
        input.from += 8 + len;
    }
    let near = clients.near.iter().enumerate().filter(|(_, it)| it.is_there).map(|(at, _)| at as u32);
    let left: Vec<u32> = near.chain(clients.far.keys().copied()).collect();
    left.into_iter().try_for_each(|it| leave(server, &mut clients, out, it))
}
