//! A plain NFS version 2 server that replays the logs of `basefs replay`, to measure it against.
//!
//! It is unverified and knows one replica and the records Request, RunAll and End. It is written from RFC 1094,
//! RFC 5531 and the rules of docs/DECISIONS.md, with hash and ordered maps, counters that are kept, and buffered
//! streams. It checks nothing of the log, and stops where a log is not one of those that bench/compare makes.
use std::collections::{BTreeMap, HashMap};
use std::io::{BufReader, BufWriter, Read, Write};

const ROOT: u32 = 0;
const ENTRY_BYTES: u64 = 512;
const FILE_LIMIT: u64 = 1_048_576;
const DATA_LIMIT: usize = 8192;
const NOBODY: u32 = 65534;
const ABSENT: u32 = u32::MAX;

const PERM: u32 = 1;
const NOENT: u32 = 2;
const NXIO: u32 = 6;
const ACCES: u32 = 13;
const EXIST: u32 = 17;
const NOTDIR: u32 = 20;
const ISDIR: u32 = 21;
const FBIG: u32 = 27;
const NOSPC: u32 = 28;
const NOTEMPTY: u32 = 66;
const STALE: u32 = 70;

type Time = (u32, u32);
/// What a call came to: the result's words, or the status of its refusal.
type Answer = Result<Vec<u8>, u32>;

enum Body {
    File(Vec<u8>),
    Link(Vec<u8>),
    Dir { names: BTreeMap<Vec<u8>, u32>, parent: u32, subdirs: u32 },
}

struct Node {
    mode: u32,
    uid: u32,
    gid: u32,
    links: u32,
    times: [Time; 3],
    body: Body,
}

impl Node {
    fn is_dir(&self) -> bool {
        matches!(self.body, Body::Dir { .. })
    }

    fn bytes(&self) -> u64 {
        match &self.body {
            Body::File(bytes) | Body::Link(bytes) => bytes.len() as u64,
            Body::Dir { .. } => 0,
        }
    }
}

/// The arguments of a call, read from the front.
struct Reader<'a> {
    bytes: &'a [u8],
}

impl<'a> Reader<'a> {
    fn word(&mut self) -> u32 {
        let (word, rest) = self.bytes.split_at(4);
        self.bytes = rest;
        u32::from_be_bytes(word.try_into().unwrap())
    }

    fn opaque(&mut self) -> &'a [u8] {
        let length = self.word() as usize;
        let (item, rest) = self.bytes.split_at(length.next_multiple_of(4));
        self.bytes = rest;
        &item[..length]
    }

    /// A handle's index and generation.
    fn handle(&mut self) -> (u32, u32) {
        self.word();
        let found = (self.word(), self.word());
        self.bytes = &self.bytes[20..];
        found
    }

    fn sattr(&mut self) -> Sattr {
        let mut words = [0; 8];
        words.iter_mut().for_each(|word| *word = self.word());
        Sattr { words }
    }
}

/// The attributes that a call gives: all ones are not given.
struct Sattr {
    words: [u32; 8],
}

impl Sattr {
    fn given(&self, field: usize) -> Option<u32> {
        Some(self.words[field]).filter(|word| *word != ABSENT)
    }

    fn time(&self, field: usize, now: Time) -> Option<Time> {
        let time = (self.words[field], self.words[field + 1]);
        match time {
            (ABSENT, _) => None,
            (_, micros) if micros >= 1_000_000 => Some(now),
            _ => Some(time),
        }
    }
}

fn put(out: &mut Vec<u8>, words: &[u32]) {
    words.iter().for_each(|word| out.extend_from_slice(&word.to_be_bytes()));
}

fn put_opaque(out: &mut Vec<u8>, bytes: &[u8]) {
    put(out, &[bytes.len() as u32]);
    out.extend_from_slice(bytes);
    out.resize(out.len().next_multiple_of(4), 0);
}

fn is_bad(name: &[u8]) -> bool {
    name.is_empty() || name.iter().any(|byte| *byte == b'/' || *byte == 0)
}

fn is_dot(name: &[u8]) -> bool {
    name == b"." || name == b".."
}

struct Service {
    nodes: HashMap<u32, Node>,
    generations: Vec<u32>,
    lowest: u32,
    used: u64,
    space: u64,
}

impl Service {
    fn new(entries: u32, space: u64) -> Service {
        let mut generations = vec![0; entries as usize];
        generations[0] = 1;
        let body = Body::Dir { names: BTreeMap::new(), parent: ROOT, subdirs: 0 };
        let root = Node { mode: 0o777, uid: 0, gid: 0, links: 1, times: [(0, 0); 3], body };
        Service { nodes: HashMap::from([(ROOT, root)]), generations, lowest: 1, used: 0, space }
    }

    fn live(&self, handle: (u32, u32)) -> Result<u32, u32> {
        let (index, generation) = handle;
        let known = self.generations.get(index as usize) == Some(&generation);
        if known && self.nodes.contains_key(&index) { Ok(index) } else { Err(STALE) }
    }

    fn names(&self, dir: u32) -> Result<&BTreeMap<Vec<u8>, u32>, u32> {
        match &self.nodes[&dir].body {
            Body::Dir { names, .. } => Ok(names),
            _ => Err(NOTDIR),
        }
    }

    /// The directory of a call and where its name leads, after the refusals that all such calls share.
    fn named(&self, handle: (u32, u32), name: &[u8], dot: u32) -> Result<(u32, Option<u32>), u32> {
        let dir = self.live(handle)?;
        let names = self.names(dir)?;
        if is_bad(name) {
            return Err(ACCES);
        }
        if is_dot(name) {
            return Err(dot);
        }
        Ok((dir, names.get(name).copied()))
    }

    fn edit(&mut self, index: u32) -> &mut Node {
        self.nodes.get_mut(&index).unwrap()
    }

    fn touch(&mut self, index: u32, now: Time) {
        let node = self.edit(index);
        node.times[1] = now;
        node.times[2] = now;
    }

    fn room(&self, goes: u64, comes: u64) -> Result<(), u32> {
        if comes > goes && self.used + comes - goes > self.space { Err(NOSPC) } else { Ok(()) }
    }

    fn put_attributes(&self, out: &mut Vec<u8>, index: u32) {
        let node = &self.nodes[&index];
        let (kind, letter, links, size) = match &node.body {
            Body::File(bytes) => (1, 0o100000, node.links, bytes.len() as u32),
            Body::Link(text) => (5, 0o120000, node.links, text.len() as u32),
            Body::Dir { names, subdirs, .. } => (2, 0o040000, 2 + subdirs, 512 + 32 * names.len() as u32),
        };
        let blocks = size.div_ceil(512);
        put(out, &[kind, letter | node.mode, links, node.uid, node.gid, size, 4096, 0, blocks, 1, index + 1]);
        node.times.iter().for_each(|time| put(out, &[time.0, time.1]));
    }

    fn attributes(&self, index: u32) -> Vec<u8> {
        let mut out = Vec::with_capacity(68);
        self.put_attributes(&mut out, index);
        out
    }

    fn node(&self, index: u32) -> Vec<u8> {
        let mut out = Vec::with_capacity(100);
        put(&mut out, &[0x4241_5345, index, self.generations[index as usize], 0, 0, 0, 0, 0]);
        self.put_attributes(&mut out, index);
        out
    }

    fn set_attributes(&mut self, handle: (u32, u32), sattr: &Sattr, now: Time) -> Answer {
        let index = self.live(handle)?;
        if let Some(size) = sattr.given(3) {
            match &self.nodes[&index].body {
                Body::Dir { .. } => return Err(ISDIR),
                Body::Link(_) => return Err(ACCES),
                Body::File(_) => {}
            }
            self.resize(index, size as u64)?;
            self.edit(index).times[1] = now;
        }
        let node = self.edit(index);
        node.mode = sattr.given(0).map_or(node.mode, |mode| mode & 0o7777);
        node.uid = sattr.given(1).unwrap_or(node.uid);
        node.gid = sattr.given(2).unwrap_or(node.gid);
        node.times[0] = sattr.time(4, now).unwrap_or(node.times[0]);
        node.times[1] = sattr.time(6, now).unwrap_or(node.times[1]);
        node.times[2] = now;
        Ok(self.attributes(index))
    }

    fn resize(&mut self, index: u32, size: u64) -> Result<(), u32> {
        if size > FILE_LIMIT {
            return Err(FBIG);
        }
        let old = self.nodes[&index].bytes();
        self.room(old, size)?;
        if let Body::File(bytes) = &mut self.edit(index).body {
            bytes.resize(size as usize, 0);
        }
        self.used = self.used + size - old;
        Ok(())
    }

    fn lookup(&self, handle: (u32, u32), name: &[u8]) -> Answer {
        let dir = self.live(handle)?;
        let names = self.names(dir)?;
        if is_bad(name) {
            return Err(ACCES);
        }
        let found = match name {
            b"." => Some(dir),
            b".." => self.parent(dir),
            _ => names.get(name).copied(),
        };
        Ok(self.node(found.ok_or(NOENT)?))
    }

    fn parent(&self, dir: u32) -> Option<u32> {
        match &self.nodes[&dir].body {
            Body::Dir { parent, .. } => Some(*parent),
            _ => None,
        }
    }

    fn read(&self, handle: (u32, u32), offset: u32, count: u32) -> Answer {
        let index = self.live(handle)?;
        let bytes = match &self.nodes[&index].body {
            Body::File(bytes) => bytes,
            Body::Link(_) => return Err(ACCES),
            Body::Dir { .. } => return Err(ISDIR),
        };
        let from = bytes.len().min(offset as usize);
        let to = bytes.len().min(from + DATA_LIMIT.min(count as usize));
        let mut out = Vec::with_capacity(72 + to - from + 4);
        self.put_attributes(&mut out, index);
        put_opaque(&mut out, &bytes[from..to]);
        Ok(out)
    }

    fn write(&mut self, handle: (u32, u32), offset: u32, piece: &[u8], now: Time) -> Answer {
        let index = self.live(handle)?;
        match &self.nodes[&index].body {
            Body::File(_) => {}
            Body::Link(_) => return Err(ACCES),
            Body::Dir { .. } => return Err(ISDIR),
        }
        let old = self.nodes[&index].bytes();
        let end = offset as u64 + piece.len() as u64;
        if !piece.is_empty() {
            self.resize(index, old.max(end))?;
            if let Body::File(bytes) = &mut self.edit(index).body {
                bytes[offset as usize..end as usize].copy_from_slice(piece);
            }
        }
        self.touch(index, now);
        Ok(self.attributes(index))
    }

    fn free(&self) -> Result<u32, u32> {
        let indexes = self.lowest..self.generations.len() as u32;
        let is_free = |index: &u32| !self.nodes.contains_key(index) && self.generations[*index as usize] < u32::MAX;
        indexes.into_iter().find(is_free).ok_or(NOSPC)
    }

    fn add(&mut self, dir: u32, name: &[u8], body: Body, default: u32, sattr: &Sattr, now: Time) -> Result<u32, u32> {
        let size = match &body {
            Body::File(bytes) | Body::Link(bytes) => bytes.len() as u64,
            Body::Dir { .. } => 0,
        };
        let index = self.free()?;
        self.room(0, ENTRY_BYTES + size)?;
        let is_dir = matches!(body, Body::Dir { .. });
        let node = Node {
            mode: sattr.given(0).map_or(default, |mode| mode & 0o7777),
            uid: sattr.given(1).unwrap_or(NOBODY),
            gid: sattr.given(2).unwrap_or(NOBODY),
            links: 1,
            times: [sattr.time(4, now).unwrap_or(now), sattr.time(6, now).unwrap_or(now), now],
            body,
        };
        self.nodes.insert(index, node);
        self.generations[index as usize] += 1;
        self.lowest = index + 1;
        self.used += size;
        self.enter(dir, name, index, is_dir, now);
        Ok(index)
    }

    /// Puts a name into a directory.
    fn enter(&mut self, dir: u32, name: &[u8], index: u32, is_dir: bool, now: Time) {
        self.used += ENTRY_BYTES;
        if let Body::Dir { names, subdirs, .. } = &mut self.edit(dir).body {
            names.insert(name.to_vec(), index);
            *subdirs += u32::from(is_dir);
        }
        if is_dir {
            if let Body::Dir { parent, .. } = &mut self.edit(index).body {
                *parent = dir;
            }
        }
        self.touch(dir, now);
    }

    /// Takes a name out of a directory.
    fn leave(&mut self, dir: u32, name: &[u8], is_dir: bool, now: Time) {
        self.used -= ENTRY_BYTES;
        if let Body::Dir { names, subdirs, .. } = &mut self.edit(dir).body {
            names.remove(name);
            *subdirs -= u32::from(is_dir);
        }
        self.touch(dir, now);
    }

    /// One name less leads to an object, which goes with its last.
    fn unlink(&mut self, index: u32, now: Time) {
        let node = self.edit(index);
        node.links -= 1;
        node.times[2] = now;
        if node.links == 0 {
            self.used -= self.nodes[&index].bytes();
            self.nodes.remove(&index);
            self.lowest = self.lowest.min(index);
        }
    }

    fn create(&mut self, handle: (u32, u32), name: &[u8], sattr: &Sattr, now: Time) -> Answer {
        let (dir, found) = self.named(handle, name, EXIST)?;
        let size = sattr.given(3);
        match found {
            Some(index) if !matches!(self.nodes[&index].body, Body::File(_)) => Err(EXIST),
            Some(index) => {
                if let Some(size) = size {
                    self.resize(index, size as u64)?;
                    self.touch(index, now);
                }
                Ok(self.node(index))
            }
            None if size.unwrap_or(0) as u64 > FILE_LIMIT => Err(FBIG),
            None => {
                let body = Body::File(vec![0; size.unwrap_or(0) as usize]);
                let index = self.add(dir, name, body, 0o644, sattr, now)?;
                Ok(self.node(index))
            }
        }
    }

    fn make(&mut self, handle: (u32, u32), name: &[u8], text: Option<&[u8]>, sattr: &Sattr, now: Time) -> Answer {
        let (dir, found) = self.named(handle, name, EXIST)?;
        if found.is_some() {
            return Err(EXIST);
        }
        if let Some(text) = text {
            self.add(dir, name, Body::Link(text.to_vec()), 0o777, sattr, now)?;
            return Ok(Vec::new());
        }
        let body = Body::Dir { names: BTreeMap::new(), parent: dir, subdirs: 0 };
        let index = self.add(dir, name, body, 0o755, sattr, now)?;
        Ok(self.node(index))
    }

    fn remove(&mut self, handle: (u32, u32), name: &[u8], of_dir: bool, now: Time) -> Answer {
        let (dir, found) = self.named(handle, name, PERM)?;
        let index = found.ok_or(NOENT)?;
        match self.names(index) {
            Ok(_) if !of_dir => return Err(ISDIR),
            Ok(names) if !names.is_empty() => return Err(NOTEMPTY),
            Err(_) if of_dir => return Err(NOTDIR),
            _ => {}
        }
        self.leave(dir, name, of_dir, now);
        self.unlink(index, now);
        Ok(Vec::new())
    }

    fn link(&mut self, file: (u32, u32), handle: (u32, u32), name: &[u8], now: Time) -> Answer {
        let index = self.live(file)?;
        let dir = self.live(handle)?;
        if self.nodes[&index].is_dir() {
            return Err(PERM);
        }
        self.names(dir)?;
        let (_, found) = self.named(handle, name, PERM)?;
        if found.is_some() {
            return Err(EXIST);
        }
        self.room(0, ENTRY_BYTES)?;
        self.enter(dir, name, index, false, now);
        let node = self.edit(index);
        node.links += 1;
        node.times[2] = now;
        Ok(Vec::new())
    }

    fn rename(&mut self, from: ((u32, u32), &[u8]), to: ((u32, u32), &[u8]), now: Time) -> Answer {
        let (from_dir, to_dir) = (self.live(from.0)?, self.live(to.0)?);
        self.names(from_dir)?;
        self.names(to_dir)?;
        if is_bad(from.1) || is_bad(to.1) {
            return Err(ACCES);
        }
        if is_dot(from.1) || is_dot(to.1) {
            return Err(PERM);
        }
        let index = self.names(from_dir)?.get(from.1).copied().ok_or(NOENT)?;
        let over = self.names(to_dir)?.get(to.1).copied();
        if over == Some(index) {
            return Ok(Vec::new());
        }
        let is_dir = self.nodes[&index].is_dir();
        if let Some(over) = over {
            match self.names(over) {
                Ok(_) if !is_dir => return Err(ISDIR),
                Err(_) if is_dir => return Err(NOTDIR),
                Ok(names) if !names.is_empty() => return Err(NOTEMPTY),
                _ => {}
            }
        }
        if is_dir && self.is_below(to_dir, index) {
            return Err(ACCES);
        }
        if let Some(over) = over {
            self.leave(to_dir, to.1, is_dir, now);
            self.unlink(over, now);
        }
        self.leave(from_dir, from.1, is_dir, now);
        self.enter(to_dir, to.1, index, is_dir, now);
        Ok(Vec::new())
    }

    fn is_below(&self, mut dir: u32, top: u32) -> bool {
        while dir != top && dir != ROOT {
            dir = self.parent(dir).unwrap();
        }
        dir == top
    }

    fn list(&self, handle: (u32, u32), cookie: u32, count: u32) -> Answer {
        let dir = self.live(handle)?;
        let names = self.names(dir)?;
        let parent = self.parent(dir).unwrap();
        let dots: [(&[u8], u32); 2] = [(b".", dir), (b"..", parent)];
        let all = dots.into_iter().chain(names.iter().map(|(name, index)| (name.as_slice(), *index)));
        let room = DATA_LIMIT.min(count as usize);
        let mut out = Vec::new();
        let mut given = cookie;
        for (name, index) in all.skip(cookie as usize) {
            if out.len() + 16 + name.len().next_multiple_of(4) + 8 > room {
                break;
            }
            given += 1;
            put(&mut out, &[1, index + 1]);
            put_opaque(&mut out, name);
            put(&mut out, &[given]);
        }
        let is_end = given as usize >= names.len() + 2;
        put(&mut out, &[0, u32::from(is_end)]);
        Ok(out)
    }

    fn stat_fs(&self, handle: (u32, u32)) -> Answer {
        self.live(handle)?;
        let free = ((self.space - self.used) / 512) as u32;
        let mut out = Vec::new();
        put(&mut out, &[8192, 512, (self.space / 512) as u32, free, free]);
        Ok(out)
    }

    fn call(&mut self, procedure: u32, r: &mut Reader, now: Time) -> Answer {
        match procedure {
            1 => { let index = self.live(r.handle())?; Ok(self.attributes(index)) }
            2 => { let handle = r.handle(); self.set_attributes(handle, &r.sattr(), now) }
            4 => { let dir = r.handle(); self.lookup(dir, r.opaque()) }
            5 => {
                let index = self.live(r.handle())?;
                let Body::Link(text) = &self.nodes[&index].body else { return Err(NXIO) };
                let mut out = Vec::new();
                put_opaque(&mut out, text);
                Ok(out)
            }
            6 => { let file = r.handle(); let offset = r.word(); self.read(file, offset, r.word()) }
            8 => {
                let file = r.handle();
                r.word();
                let offset = r.word();
                r.word();
                self.write(file, offset, r.opaque(), now)
            }
            9 => { let dir = r.handle(); let name = r.opaque(); self.create(dir, name, &r.sattr(), now) }
            10 | 15 => { let dir = r.handle(); self.remove(dir, r.opaque(), procedure == 15, now) }
            11 => {
                let from = (r.handle(), r.opaque());
                let to = (r.handle(), r.opaque());
                self.rename(from, to, now)
            }
            12 => { let file = r.handle(); let dir = r.handle(); self.link(file, dir, r.opaque(), now) }
            13 => {
                let dir = r.handle();
                let name = r.opaque();
                let text = r.opaque();
                self.make(dir, name, Some(text), &r.sattr(), now)
            }
            14 => { let dir = r.handle(); let name = r.opaque(); self.make(dir, name, None, &r.sattr(), now) }
            16 => { let dir = r.handle(); let cookie = r.word(); self.list(dir, cookie, r.word()) }
            _ => { self.stat_fs(r.handle()) }
        }
    }

    /// The bytes of a reply to a call with AUTH_NONE whose arguments are spelled rightly.
    fn reply(&mut self, call: &[u8], now: Time) -> Vec<u8> {
        let mut r = Reader { bytes: call };
        let head: [u32; 10] = std::array::from_fn(|_| r.word());
        let mut out = Vec::with_capacity(256);
        put(&mut out, &[head[0], 1, 0, 0, 0, 0]);
        if matches!(head[5], 0 | 3 | 7) {
            return out;
        }
        match self.call(head[5], &mut r, now) {
            Ok(result) => {
                put(&mut out, &[0]);
                out.extend_from_slice(&result);
            }
            Err(status) => put(&mut out, &[status]),
        }
        out
    }
}

fn read_word(input: &mut impl Read) -> u32 {
    let mut word = [0; 4];
    input.read_exact(&mut word).unwrap();
    u32::from_be_bytes(word)
}

fn print_reply(out: &mut impl Write, place: usize, reply: &[u8]) {
    let digits = b"0123456789abcdef";
    write!(out, "reply {place} ").unwrap();
    let text: Vec<u8> = reply.iter().flat_map(|byte| [digits[(byte >> 4) as usize], digits[(byte & 15) as usize]]).collect();
    out.write_all(&text).unwrap();
    out.write_all(b"\n").unwrap();
}

fn main() {
    let mut input = BufReader::new(std::io::stdin().lock());
    let mut out = BufWriter::new(std::io::stdout().lock());
    let mut letters = [0; 8];
    input.read_exact(&mut letters).unwrap();
    let header: [u32; 4] = std::array::from_fn(|_| read_word(&mut input));
    let mut service = Service::new(header[1], header[3] as u64);
    let mut requests: Vec<(Time, Vec<u8>)> = Vec::new();
    let mut place = 0;
    loop {
        match read_word(&mut input) {
            1 => {
                let fields: [u32; 4] = std::array::from_fn(|_| read_word(&mut input));
                let mut call = vec![0; (fields[3] as usize).next_multiple_of(4)];
                input.read_exact(&mut call).unwrap();
                call.truncate(fields[3] as usize);
                requests.push(((fields[1], fields[2]), call));
            }
            3 => {
                for (now, call) in &requests[place..] {
                    place += 1;
                    print_reply(&mut out, place, &service.reply(call, *now));
                }
            }
            14 => break,
            kind => panic!("a record of kind {kind}"),
        }
    }
    writeln!(out, "at 0 {place}").unwrap();
}
