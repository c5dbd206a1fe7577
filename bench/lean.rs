//! A lean program to compare lines with: it reads JSON and writes JSON, and holds one dictionary.
//!
//! It answers `kind` (every type of slot 1 is a struct), `pointer`, `enumerators` and `args` of
//! whole lists, `part`, and lines that are no requests, as ctfd does; any other word has an answer
//! without fields. `open` makes the staged bytes slot 1. It proves nothing, judges no dictionary,
//! and trusts that memory is granted.
use std::io::{self, Read, Write};

/// The number of each byte as a digit, 16 where it is none.
const DIGITS: [u8; 256] = {
    let mut table = [16; 256];
    let mut n = 0;
    while n < 16 {
        table[b"0123456789abcdef"[n] as usize] = n as u8;
        table[b"0123456789ABCDEF"[n] as usize] = n as u8;
        n += 1;
    }
    table
};

#[derive(Clone, Copy, Default)]
enum Value<'a> {
    Number(u64),
    Text(&'a str),
    #[default]
    Other,
}

#[derive(Default)]
struct Line<'a> {
    s: Value<'a>,
    op: Value<'a>,
    d: Value<'a>,
    t: Value<'a>,
    bytes: Value<'a>,
}

struct Reader<'a> {
    text: &'a str,
    at: usize,
}

impl<'a> Reader<'a> {
    fn next(&mut self) -> Option<u8> {
        let bytes = self.text.as_bytes();
        while matches!(bytes.get(self.at), Some(b' ' | b'\t' | b'\r')) {
            self.at += 1;
        }
        bytes.get(self.at).copied()
    }

    fn take(&mut self, byte: u8) -> Option<()> {
        (self.next()? == byte).then(|| self.at += 1)
    }

    /// A text without escapes, its quotes passed.
    fn text(&mut self) -> Option<&'a str> {
        self.take(b'"')?;
        let rest = &self.text[self.at..];
        let len = rest.bytes().position(|b| b == b'"' || b == b'\\' || b < 32)?;
        self.at += len;
        self.take(b'"')?;
        Some(&rest[..len])
    }

    fn number(&mut self) -> Option<Value<'a>> {
        let rest = &self.text[self.at..];
        let len = rest.bytes().position(|b| !b.is_ascii_digit()).unwrap_or(rest.len());
        self.at += len;
        (len > 0 && (len == 1 || !rest.starts_with('0'))).then_some(())?;
        Some(Value::Number(rest[..len].parse().ok()?))
    }

    fn word(&mut self, word: &str) -> Option<Value<'a>> {
        self.text[self.at..].starts_with(word).then(|| self.at += word.len())?;
        Some(Value::Other)
    }

    fn value(&mut self, depth: u32) -> Option<Value<'a>> {
        match self.next()? {
            b'"' => Some(Value::Text(self.text()?)),
            b'[' if depth > 0 => self.items(depth - 1),
            b'n' => self.word("null"),
            b't' => self.word("true"),
            b'f' => self.word("false"),
            _ => self.number(),
        }
    }

    fn items(&mut self, depth: u32) -> Option<Value<'a>> {
        self.take(b'[')?;
        while self.take(b']').is_none() {
            self.value(depth)?;
            if self.next()? != b']' {
                self.take(b',')?;
            }
        }
        Some(Value::Other)
    }

    fn line(&mut self) -> Option<Line<'a>> {
        let mut line = Line::default();
        self.take(b'{')?;
        loop {
            let key = self.text()?;
            self.take(b':')?;
            let value = self.value(126)?;
            match key {
                "s" => line.s = value,
                "op" => line.op = value,
                "d" => line.d = value,
                "t" => line.t = value,
                "bytes" => line.bytes = value,
                _ => {}
            }
            if self.take(b'}').is_some() {
                break;
            }
            self.take(b',')?;
        }
        self.next().is_none().then_some(line)
    }
}

/// A dictionary of the bytes that were staged. Its records are not judged.
#[derive(Default)]
struct Dictionary {
    bytes: Vec<u8>,
    /// Where each record begins.
    records: Vec<usize>,
    /// The pointer to each type, 0 where there is none.
    pointers: Vec<u16>,
    /// Where the strings begin.
    strings: usize,
}

/// The bytes of a record behind its head.
fn length_of_items(kind: u16, items: usize, size: u16) -> usize {
    match kind {
        1 | 2 => 4,
        4 => 8,
        5 => (items + items % 2) * 2,
        6 | 7 if size >= 8_192 => items * 16,
        6..=8 => items * 8,
        _ => 0,
    }
}

impl Dictionary {
    fn half(&self, at: usize) -> u16 {
        u16::from_le_bytes([self.bytes[at], self.bytes[at + 1]])
    }

    fn word(&self, at: usize) -> u32 {
        u32::from(self.half(at)) | u32::from(self.half(at + 2)) << 16
    }

    fn open(bytes: Vec<u8>) -> Dictionary {
        let mut all = Dictionary { bytes, ..Default::default() };
        let mut at = 36 + all.word(24) as usize;
        all.strings = 36 + all.word(28) as usize;
        while at < all.strings {
            all.records.push(at);
            let (info, size) = (all.half(at + 4), all.half(at + 6));
            let head = if size == u16::MAX { 16 } else { 8 };
            at += head + length_of_items(info >> 11, usize::from(info & 1023), size);
        }
        all.pointers = vec![0; all.records.len()];
        for (place, at) in all.records.iter().enumerate().rev() {
            let (kind, to) = (all.half(at + 4) >> 11, usize::from(all.half(at + 6)));
            if kind == 3 && to > 0 {
                all.pointers[to - 1] = place as u16 + 1;
            }
        }
        all
    }

    /// Where the record of a type begins.
    fn record(&self, number: u64, s: u64) -> Result<usize, (u64, u32)> {
        let at = usize::try_from(number).ok().and_then(|n| self.records.get(n.wrapping_sub(1)));
        at.copied().ok_or((s, 24))
    }

    /// Where the items of a type of one kind begin, and their number.
    fn items(&self, kind: u16, number: u64, s: u64) -> Result<(usize, usize), (u64, u32)> {
        let at = self.record(number, s)?;
        let info = self.half(at + 4);
        (info >> 11 == kind).then_some((at + 8, usize::from(info & 1023))).ok_or((s, 30))
    }

    fn name(&self, at: usize) -> &[u8] {
        let rest = &self.bytes[self.strings + self.word(at) as usize..];
        &rest[..rest.iter().position(|b| *b == 0).unwrap_or(rest.len())]
    }

    fn put_enumerators(&self, out: &mut Vec<u8>, number: u64, s: u64) -> Result<(), (u64, u32)> {
        let (from, count) = self.items(8, number, s)?;
        put(out, &["{\"ok\":{\"enumerators\":["], &[]);
        for at in (0..count).map(|item| from + 8 * item) {
            put(out, &[if at > from { "," } else { "" }, "{\"name\":"], &[]);
            put_text(out, self.name(at));
            let value = self.word(at + 4) as i32;
            let sign = if value < 0 { ",\"value\":-" } else { ",\"value\":" };
            put(out, &[sign, "}"], &[u64::from(value.unsigned_abs())]);
        }
        put(out, &["],\"total\":", "},\"s\":", "}\n"], &[count as u64, s]);
        Ok(())
    }

    fn put_args(&self, out: &mut Vec<u8>, number: u64, s: u64) -> Result<(), (u64, u32)> {
        let (from, count) = self.items(5, number, s)?;
        let is_open = count > 0 && self.half(from + 2 * count - 2) == 0;
        put(out, &["{\"ok\":{\"args\":["], &[]);
        for at in (0..count - usize::from(is_open)).map(|item| from + 2 * item) {
            put(out, &[if at > from { "," } else { "" }, ""], &[u64::from(self.half(at))]);
        }
        let result = u64::from(self.half(from - 2));
        let end = if is_open { ",\"varargs\":true},\"s\":" } else { ",\"varargs\":false},\"s\":" };
        put(out, &["],\"return\":", end, "}\n"], &[result, s]);
        Ok(())
    }

    /// The pointer to a type, else that to the type behind its typedefs and qualifiers.
    fn put_pointer(&self, out: &mut Vec<u8>, number: u64, s: u64) -> Result<(), (u64, u32)> {
        let mut at = self.record(number, s)?;
        let mut found = self.pointers[number as usize - 1];
        while found == 0 && matches!(self.half(at + 4) >> 11, 10..=13) {
            let to = self.half(at + 6);
            at = self.record(u64::from(to), s).map_err(|_| (s, 32))?;
            found = self.pointers[usize::from(to) - 1];
        }
        if found == 0 {
            return Err((s, 32));
        }
        put(out, &["{\"ok\":{\"t\":", "},\"s\":", "}\n"], &[u64::from(found), s]);
        Ok(())
    }
}

/// A name in quotes, with escapes where it needs them.
fn put_text(out: &mut Vec<u8>, name: &[u8]) {
    out.push(b'"');
    if name.iter().all(|b| (32..127).contains(b) && *b != b'"' && *b != b'\\') {
        out.extend_from_slice(name);
    } else {
        for byte in name {
            match byte {
                b'"' | b'\\' => out.extend_from_slice(&[b'\\', *byte]),
                32..=126 => out.push(*byte),
                _ => out.extend_from_slice(format!("\\u00{byte:02x}").as_bytes()),
            }
        }
    }
    out.push(b'"');
}

/// The bytes that digits spell, behind those that are staged.
fn stage(staged: &mut Vec<u8>, digits: &[u8]) -> Option<usize> {
    let (before, mut all) = (staged.len(), digits.len() % 2);
    staged.extend(digits.chunks_exact(2).map(|pair| {
        let (high, low) = (DIGITS[pair[0] as usize], DIGITS[pair[1] as usize]);
        all |= usize::from((high | low) & 16);
        high << 4 | low
    }));
    if all != 0 {
        staged.truncate(before);
        return None;
    }
    Some(staged.len())
}

/// Texts one behind the other, a number between each two.
fn put(out: &mut Vec<u8>, texts: &[&str], numbers: &[u64]) {
    for (at, text) in texts.iter().enumerate() {
        out.extend_from_slice(text.as_bytes());
        let Some(mut number) = numbers.get(at).copied() else {
            continue;
        };
        let (mut digits, mut from) = ([0; 20], 20);
        while number > 0 || from == 20 {
            from -= 1;
            digits[from] = b'0' + (number % 10) as u8;
            number /= 10;
        }
        out.extend_from_slice(&digits[from..]);
    }
}

/// What a line is answered, or its session and the fault.
fn answer(
    text: &str,
    staged: &mut Vec<u8>,
    slot: &mut Dictionary,
    out: &mut Vec<u8>,
) -> Result<(), (u64, u32)> {
    let line = Reader { text, at: 0 }.line().ok_or((0, 57))?;
    let Value::Number(s @ 1..) = line.s else {
        return Err((0, 58));
    };
    match (line.op, line.d, line.t, line.bytes) {
        (Value::Text("kind"), Value::Number(1), Value::Number(1..=32_766), _) => {
            put(out, &["{\"ok\":{\"kind\":\"struct\"},\"s\":", "}\n"], &[s]);
        }
        (Value::Text("kind"), Value::Number(1), Value::Number(_), _) => return Err((s, 24)),
        (Value::Text("kind"), Value::Number(_), Value::Number(_), _) => return Err((s, 49)),
        (Value::Text("kind"), ..) => return Err((s, 58)),
        (Value::Text("part"), _, _, Value::Text(digits)) => {
            let length = stage(staged, digits.as_bytes()).ok_or((s, 58))?;
            put(out, &["{\"ok\":{\"length\":", "},\"s\":", "}\n"], &[length as u64, s]);
        }
        (Value::Text("pointer"), Value::Number(1), Value::Number(t), _) => {
            slot.put_pointer(out, t, s)?;
        }
        (Value::Text("enumerators"), Value::Number(1), Value::Number(t), _) => {
            slot.put_enumerators(out, t, s)?;
        }
        (Value::Text("args"), Value::Number(1), Value::Number(t), _) => {
            slot.put_args(out, t, s)?;
        }
        (Value::Text("open"), ..) if !staged.is_empty() => {
            *slot = Dictionary::open(std::mem::take(staged));
            let types = slot.records.len() as u64;
            put(out, &["{\"ok\":{\"d\":1,\"types\":", "},\"s\":", "}\n"], &[types, s]);
        }
        (Value::Text(_), ..) => {
            put(out, &["{\"ok\":{},\"s\":", "}\n"], &[s]);
        }
        _ => return Err((s, 58)),
    }
    Ok(())
}

fn fault_name(code: u32) -> &'static str {
    match code {
        24 => "NoType",
        30 => "WrongKind",
        32 => "NotFound",
        49 => "NoSlot",
        57 => "NotJson",
        _ => "BadRequest",
    }
}

fn main() -> io::Result<()> {
    let (mut chunk, mut staged) = (vec![0; 65_536], Vec::new());
    let (mut held, mut out) = (Vec::new(), Vec::new());
    let mut slot = Dictionary::default();
    loop {
        let count = io::stdin().read(&mut chunk)?;
        if count == 0 {
            return Ok(());
        }
        let before = held.len();
        held.extend_from_slice(&chunk[..count]);
        let end = chunk[..count].iter().rposition(|b| *b == b'\n');
        let whole = end.map_or(0, |at| before + at + 1);
        for line in held[..whole].split_inclusive(|b| *b == b'\n') {
            let text = std::str::from_utf8(&line[..line.len() - 1]).unwrap_or("");
            if let Err((s, code)) = answer(text, &mut staged, &mut slot, &mut out) {
                let name = fault_name(code);
                put(&mut out, &["{\"fault\":{\"code\":", ",\"name\":\""], &[u64::from(code)]);
                put(&mut out, &[name], &[]);
                put(&mut out, &["\",\"place\":0},\"s\":", "}\n"], &[s]);
            }
        }
        held.drain(..whole);
        io::stdout().write_all(&out)?;
        out.clear();
    }
}
