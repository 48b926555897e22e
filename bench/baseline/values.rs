//! The requests of the unproved server beside those for a long: RELEASE, GETIDS, a text of any length, an array of longs with one bound, and one element of it.
//! The library is that of tests/support/kinds.py. Only sessions of records in memory have long replies.
use super::*;

const RELEASE: u16 = 2;
const GETIDS: u16 = 3;
const GETELEM: u16 = 5;
const PUTELEM: u16 = 6;
const NAME: u32 = 2;
const LONGS: u32 = 3;
const BSTR: u16 = 8;
const ARRAY_OF_I4: u16 = 0x2003;
const POINTER: u32 = 0x0002_0000;
const MOST_TEXT: usize = 1_048_576;
const MOST_CELLS: u32 = 65_536;

const UNKNOWN_NAME: u32 = 0x8002_0006;
const BAD_INDEX: u32 = 0x8002_000B;

/// What an object has beside its long: a text, which may be null, and the cells of an array, as they are in records.
#[derive(Default)]
pub struct More {
    name: Option<Vec<u8>>,
    longs: Vec<u8>,
    lowest: i32,
}

/// Why a request is refused.
type Refused = u32;

/// The bytes of a padded part.
#[inline(always)]
fn padded(len: usize) -> usize {
    (len + 7) & !7
}

/// The field of a variant that fills the body from a place on, if it does.
#[inline(always)]
fn field(body: &[u8], at: usize) -> Result<&[u8], Refused> {
    let len = body[at..].first_chunk::<8>().map(|it| u32_at(it, 0) as usize).ok_or(BAD_STUB)?;
    if len > MOST_BYTES || body.len() != at + 8 + padded(len) || len < 20 {
        return Err(BAD_STUB);
    }
    Ok(&body[at + 8..at + 8 + len])
}

/// The content of a text's field.
#[inline(always)]
fn text(field: &[u8]) -> Result<Option<&[u8]>, Refused> {
    if u16_at(field, 8) != BSTR {
        return Err(TYPE_MISMATCH);
    }
    if field.len() < 24 || u32_at(field, 16) != u32::from(BSTR) {
        return Err(BAD_STUB);
    }
    if u32_at(field, 20) == 0 {
        return if field.len() == 24 { Ok(None) } else { Err(BAD_STUB) };
    }
    if field.len() < 36 {
        return Err(BAD_STUB);
    }
    let (most, len, units) = (u32_at(field, 24), u32_at(field, 28), u32_at(field, 32));
    if len == u32::MAX {
        return if most == 0 && units == 0 && field.len() == 36 { Ok(None) } else { Err(BAD_STUB) };
    }
    let len = len as usize;
    if len > MOST_TEXT || most as usize != len.div_ceil(2) || most != units || field.len() != 36 + len + len % 2 {
        return Err(BAD_STUB);
    }
    Ok(Some(&field[36..36 + len]))
}

/// The lowest index and the cells of an array's field.
#[inline(always)]
fn longs(field: &[u8]) -> Result<(i32, &[u8]), Refused> {
    if u16_at(field, 8) != ARRAY_OF_I4 {
        return Err(TYPE_MISMATCH);
    }
    if field.len() < 68 || u32_at(field, 28) != 1 {
        return Err(NOT_IMPLEMENTED);
    }
    let (kind, count) = (u32_at(field, 16), u32_at(field, 48));
    let is_array = (kind == 0x2000 || kind == u32::from(ARRAY_OF_I4)) && u32_at(field, 20) != 0 && u32_at(field, 24) != 0;
    let has_shape = u16_at(field, 32) == 1 && u32_at(field, 44) == u32::from(I4) && count == u32_at(field, 56) && count == u32_at(field, 64);
    if !is_array || !has_shape || count > MOST_CELLS || field.len() != 68 + 4 * count as usize {
        return Err(BAD_STUB);
    }
    Ok((u32_at(field, 60) as i32, &field[68..]))
}

/// A name of at most eight letters as a number, in which A to Z are a to z; 0 for any other name.
#[inline(always)]
fn letters(units: &[u8]) -> u64 {
    if units.len() > 16 {
        return 0;
    }
    let mut all = 0;
    for unit in units.as_chunks::<2>().0 {
        let upper = unit[0].wrapping_sub(b'A') < 26;
        if unit[1] != 0 || unit[0] == 0 {
            return 0;
        }
        all = all << 8 | u64::from(unit[0] | u8::from(upper) << 5);
    }
    all
}

const fn spelled(name: &str) -> u64 {
    let (mut all, mut at) = (0, 0);
    while at < name.len() {
        all = all << 8 | name.as_bytes()[at] as u64;
        at += 1;
    }
    all
}

/// The DISPID of a member of the library, and how many parameters it has.
#[inline(always)]
fn member(name: u64) -> Option<(u32, u64)> {
    const NAMES: [u64; 6] = [spelled("count"), spelled("name"), spelled("longs"), spelled("one"), spelled("two"), spelled("three")];
    let place = NAMES.iter().position(|it| *it == name)? as u32;
    Some((place + 1, u64::from(place).saturating_sub(2)))
}

impl Server {
    /// A live object's place, for a call or for names of its interface.
    #[inline(always)]
    fn selected(&self, body: &[u8]) -> Result<usize, Refused> {
        let place = (u32_at(body, 8) as usize).wrapping_sub(1);
        if self.values.get(place).is_none_or(|it| *it == GONE) {
            return Err(DISCONNECTED);
        }
        if !is_zero(body, 16) {
            return Err(NO_INTERFACE);
        }
        if !is_zero(body, 32) {
            return Err(UNKNOWN_INTERFACE);
        }
        Ok(place)
    }

    #[inline(always)]
    fn more(&mut self, place: usize) -> &mut More {
        if self.others.len() <= place {
            self.others.resize_with(place + 1, More::default);
        }
        &mut self.others[place]
    }

    /// The requests that are not for a long.
    #[inline(never)]
    pub fn answer_other(&mut self, tag: u32, body: &[u8]) -> Reply {
        assert!(self.journal.is_none(), "only longs over a store");
        let mut reply = Reply::bare(tag, S_OK);
        let done = match u16_at(body, 4) {
            RELEASE if body.len() == 16 => self.release(body),
            GETIDS if body.len() >= 56 => self.ids(&mut reply, body),
            INVOKE if body.len() >= 64 => self.invoke_other(&mut reply, body),
            GETELEM | PUTELEM if body.len() >= 64 => self.element(&mut reply, body),
            _ => Err(BAD_STUB),
        };
        if let Err(code) = done {
            reply.set(4, code);
        }
        reply
    }

    fn release(&mut self, body: &[u8]) -> Result<(), Refused> {
        let place = (u32_at(body, 8) as usize).wrapping_sub(1);
        let held = self.values.get_mut(place).filter(|it| **it != GONE).ok_or(DISCONNECTED)?;
        *held = GONE;
        if let Some(more) = self.others.get_mut(place) {
            *more = More::default();
        }
        Ok(())
    }

    fn ids(&mut self, reply: &mut Reply, body: &[u8]) -> Result<(), Refused> {
        let count = u32_at(body, 52) as usize;
        let mut names = [0; 6];
        if count == 0 || count > 17 {
            return Err(BAD_STUB);
        }
        let mut at = 56;
        for place in 0..count {
            let units = body[at..].first_chunk::<8>().map(|it| u32_at(it, 0) as usize).ok_or(BAD_STUB)?;
            let end = at + 8 + 2 * units;
            if body.len() < padded(end) {
                return Err(BAD_STUB);
            }
            *names.get_mut(place).ok_or(NOT_IMPLEMENTED)? = letters(&body[at + 8..end]);
            at = padded(end);
        }
        if at != body.len() {
            return Err(BAD_STUB);
        }
        self.selected(body)?;
        reply.set(16, count as u32);
        reply.bytes[24..48].fill(0xFF);
        let mut unknown = true;
        if let Some((dispid, parameters)) = member(names[0]) {
            unknown = false;
            reply.set(24, dispid);
            for (place, name) in names[1..count].iter().enumerate() {
                let number = name.wrapping_sub(u64::from(b'a'));
                let known = number < parameters;
                unknown |= !known;
                let dispid = if known { number as u32 } else { u32::MAX };
                reply.set(28 + 4 * place, dispid);
            }
        }
        if count % 2 == 1 {
            reply.set(24 + 4 * count, 0);
        }
        if unknown {
            reply.set(4, UNKNOWN_NAME);
        }
        reply.len = padded(24 + 4 * count);
        Ok(())
    }

    fn invoke_other(&mut self, reply: &mut Reply, body: &[u8]) -> Result<(), Refused> {
        let (dispid, arguments, named) = (u32_at(body, 12), u32_at(body, 56), u32_at(body, 60));
        match u16_at(body, 52) {
            GET if arguments == 0 && named == 0 && body.len() == 64 => {
                let place = self.selected(body)?;
                if dispid != NAME && dispid != LONGS {
                    return Err(MEMBER_NOT_FOUND);
                }
                reply.long(place, dispid);
                Ok(())
            }
            PUT if arguments == 1 && named == 1 && body.len() >= 72 && u32_at(body, 64) == NEW_VALUE => {
                let field = field(body, 72)?;
                let place = self.selected(body)?;
                match dispid {
                    NAME => {
                        let text = text(field)?;
                        let held = &mut self.more(place).name;
                        match (text, &mut *held) {
                            (Some(text), Some(held)) => {
                                held.clear();
                                held.extend_from_slice(text);
                            }
                            (text, _) => *held = text.map(Vec::from),
                        }
                    }
                    LONGS => {
                        let (lowest, cells) = longs(field)?;
                        let more = self.more(place);
                        more.lowest = lowest;
                        more.longs.clear();
                        more.longs.extend_from_slice(cells);
                    }
                    _ => return Err(MEMBER_NOT_FOUND),
                }
                Ok(())
            }
            _ => Err(NOT_IMPLEMENTED),
        }
    }

    /// An element of an array, which has one index.
    fn element(&mut self, reply: &mut Reply, body: &[u8]) -> Result<(), Refused> {
        if u32_at(body, 56) != 0 || u32_at(body, 60) != 0 || body.len() < 80 || u32_at(body, 64) != 1 {
            return Err(NOT_IMPLEMENTED);
        }
        let value = match u16_at(body, 4) {
            PUTELEM => Some(field(body, 80)?),
            _ if body.len() == 80 => None,
            _ => return Err(BAD_STUB),
        };
        if value.is_some_and(|it| it.len() != 24 || u32_at(it, 16) != u32::from(u16_at(it, 8))) {
            return Err(BAD_STUB);
        }
        let place = self.selected(body)?;
        if u32_at(body, 12) != LONGS {
            return Err(TYPE_MISMATCH);
        }
        let more = self.more(place);
        let at = i64::from(u32_at(body, 72) as i32) - i64::from(more.lowest);
        let cell = usize::try_from(at).ok().and_then(|it| more.longs.as_chunks_mut::<4>().0.get_mut(it)).ok_or(BAD_INDEX)?;
        let Some(value) = value else {
            reply.set_value(u32::from_le_bytes(*cell));
            return Ok(());
        };
        if u16_at(value, 8) != I4 {
            return Err(TYPE_MISMATCH);
        }
        cell.copy_from_slice(&value[20..24]);
        Ok(())
    }
}

impl Reply {
    fn set(&mut self, at: usize, number: u32) {
        self.bytes[at..at + 4].copy_from_slice(&number.to_le_bytes());
    }

    /// Leaves the reply to `put_long`, with the object's place and the member.
    fn long(&mut self, place: usize, dispid: u32) {
        self.set(16, dispid);
        self.bytes[24..32].copy_from_slice(&place.to_le_bytes());
        self.len = usize::MAX;
    }
}

impl Out {
    /// Writes bytes behind the replies, and keeps room for a short reply.
    fn append(&mut self, bytes: &[u8]) -> io::Result<()> {
        if self.bytes.len() - self.len < bytes.len() + 128 {
            self.write()?;
            if bytes.len() + 128 > self.bytes.len() {
                return self.to.write_all(bytes);
            }
        }
        self.bytes[self.len..self.len + bytes.len()].copy_from_slice(bytes);
        self.len += bytes.len();
        Ok(())
    }

    /// Writes the reply that tells a text or an array.
    #[inline(never)]
    pub fn put_long(&mut self, server: &mut Server, reply: &Reply) -> io::Result<()> {
        assert!(self.framing == Framing::Records, "long replies only as records");
        let (dispid, place) = (u32_at(&reply.bytes, 16), usize::from_le_bytes(*reply.bytes[24..].first_chunk().unwrap()));
        let mut head = [0; 96];
        let mut set = |at: usize, number: u32| head[at..at + 4].copy_from_slice(&number.to_le_bytes());
        let more = server.more(place);
        let (front, content, len) = match (dispid, &more.name) {
            (LONGS, _) => {
                let count = (more.longs.len() / 4) as u32;
                set(36, u32::from(ARRAY_OF_I4));
                set(44, 0x2000);
                set(48, POINTER);
                set(52, POINTER);
                set(56, 1);
                set(60, 1 | 0x80 << 16);
                set(64, 4);
                set(68, u32::from(I4) << 16);
                set(72, u32::from(I4));
                set(76, count);
                set(80, POINTER);
                set(84, count);
                set(88, more.lowest as u32);
                set(92, count);
                (96, &more.longs[..], 68 + more.longs.len())
            }
            (_, Some(name)) => {
                let units = name.len().div_ceil(2) as u32;
                set(36, u32::from(BSTR));
                set(44, u32::from(BSTR));
                set(48, POINTER);
                set(52, units);
                set(56, name.len() as u32);
                set(60, units);
                (64, &name[..], 36 + name.len() + name.len() % 2)
            }
            (_, None) => {
                set(36, u32::from(BSTR));
                set(44, u32::from(BSTR));
                (52, &[][..], 24)
            }
        };
        set(0, 24 + padded(len) as u32);
        set(20, len as u32);
        set(28, len.div_ceil(8) as u32);
        head[4..20].copy_from_slice(&reply.bytes[..16]);
        if self.bytes.len() - self.len < content.len() + 256 {
            self.append(&head[..front])?;
            self.append(content)?;
            return self.append(&[0; 8][..28 + padded(len) - front - content.len()]);
        }
        let (to, rest) = self.bytes[self.len..].split_at_mut(front + content.len());
        to[..front].copy_from_slice(&head[..front]);
        to[front..].copy_from_slice(content);
        rest[..8].fill(0);
        self.len += 28 + padded(len);
        Ok(())
    }
}
