//! Protocol Buffers fields and Kinetic's frame, as far as a client needs them.

/// The limits of a frame (document 01).
pub const MOST_MESSAGE: usize = 8192;
pub const MOST_VALUE: usize = 1024;

const HEAD: usize = 9;

/// A message that is being written: fields in the order in which they are given, varints the shortest. A field that is given as none is left out.
#[derive(Default)]
pub struct Message(Vec<u8>);

impl Message {
    pub fn number(mut self, field: u64, number: impl Into<Option<i64>>) -> Message {
        if let Some(number) = number.into() {
            self.varint(field << 3);
            self.varint(number as u64);
        }
        self
    }

    pub fn bytes<'a>(mut self, field: u64, content: impl Into<Option<&'a [u8]>>) -> Message {
        if let Some(content) = content.into() {
            self.varint(field << 3 | 2);
            self.varint(content.len() as u64);
            self.0.extend_from_slice(content);
        }
        self
    }

    pub fn message(self, field: u64, content: Message) -> Message {
        self.bytes(field, content.0.as_slice())
    }

    pub fn done(self) -> Vec<u8> {
        self.0
    }

    fn varint(&mut self, mut number: u64) {
        while number > 127 {
            self.0.push(number as u8 | 128);
            number >>= 7;
        }
        self.0.push(number as u8);
    }
}

#[derive(Clone, Copy)]
enum Content<'a> {
    Number(u64),
    Bytes(&'a [u8]),
    Fixed32([u8; 4]),
    Fixed64,
}

/// The fields of a message that was read. Asked for by number; one of another wire type, or twice where once is meant, is an error.
pub struct Fields<'a>(Vec<(u64, Content<'a>)>);

impl<'a> Fields<'a> {
    pub fn read(mut bytes: &'a [u8]) -> Result<Fields<'a>, String> {
        let mut fields = Vec::new();
        while !bytes.is_empty() {
            let (tag, rest) = read_varint(bytes)?;
            let field = tag >> 3;
            if field == 0 || tag >> 32 != 0 {
                return Err(format!("there is no field {field}"));
            }
            let (content, rest) = read_content(tag & 7, rest).map_err(|why| format!("field {field}: {why}"))?;
            fields.push((field, content));
            bytes = rest;
        }
        Ok(Fields(fields))
    }

    pub fn number(&self, field: u64) -> Result<Option<i64>, String> {
        self.once(field, |content| if let Content::Number(number) = content { Some(number as i64) } else { None })
    }

    pub fn bytes(&self, field: u64) -> Result<Option<&'a [u8]>, String> {
        self.once(field, bytes_in)
    }

    pub fn float(&self, field: u64) -> Result<Option<f32>, String> {
        self.once(field, |content| if let Content::Fixed32(bytes) = content { Some(f32::from_le_bytes(bytes)) } else { None })
    }

    /// The fields of the message in a field, none where it is missing.
    pub fn message(&self, field: u64) -> Result<Fields<'a>, String> {
        Fields::read(self.bytes(field)?.unwrap_or_default())
    }

    /// The contents of a field that may repeat.
    pub fn each(&self, field: u64) -> Result<Vec<&'a [u8]>, String> {
        self.all(field, bytes_in)
    }

    fn all<T>(&self, field: u64, of: impl Fn(Content<'a>) -> Option<T>) -> Result<Vec<T>, String> {
        let contents = self.0.iter().filter(|(number, _)| *number == field);
        contents.map(|(_, content)| of(*content).ok_or_else(|| format!("field {field} is of another wire type"))).collect()
    }

    fn once<T>(&self, field: u64, of: impl Fn(Content<'a>) -> Option<T>) -> Result<Option<T>, String> {
        let mut all = self.all(field, of)?;
        let last = all.pop();
        if all.is_empty() { Ok(last) } else { Err(format!("field {field} is there twice")) }
    }
}

fn bytes_in(content: Content<'_>) -> Option<&[u8]> {
    if let Content::Bytes(bytes) = content { Some(bytes) } else { None }
}

/// A number, and what follows it.
fn read_varint(bytes: &[u8]) -> Result<(u64, &[u8]), String> {
    let mut number = 0;
    for (place, byte) in bytes.iter().enumerate() {
        if place == 9 && *byte > 1 {
            return Err("a number is over 64 bits".into());
        }
        number |= u64::from(byte & 127) << (7 * place);
        if *byte < 128 {
            return Ok((number, &bytes[place + 1..]));
        }
    }
    Err("a number is cut off".into())
}

/// The content of a field of that wire type, and what follows it.
fn read_content(wire: u64, bytes: &[u8]) -> Result<(Content<'_>, &[u8]), String> {
    let cut = || "it is cut off".to_string();
    match wire {
        0 => read_varint(bytes).map(|(number, rest)| (Content::Number(number), rest)),
        1 => bytes.split_first_chunk::<8>().map(|(_, rest)| (Content::Fixed64, rest)).ok_or_else(cut),
        2 => {
            let (length, rest) = read_varint(bytes)?;
            let parts = usize::try_from(length).ok().and_then(|length| rest.split_at_checked(length));
            parts.map(|(content, rest)| (Content::Bytes(content), rest)).ok_or_else(cut)
        }
        5 => bytes.split_first_chunk::<4>().map(|(fixed, rest)| (Content::Fixed32(*fixed), rest)).ok_or_else(cut),
        _ => Err(format!("wire type {wire} is not used")),
    }
}

pub struct Frame {
    pub message: Vec<u8>,
    pub value: Vec<u8>,
}

/// The bytes of a frame, unless a part is over its limit.
pub fn frame(message: &[u8], value: &[u8]) -> Result<Vec<u8>, String> {
    limited(message.len(), value.len())?;
    let lengths = [message.len() as u32, value.len() as u32].map(u32::to_be_bytes);
    Ok([&[0x46], lengths.as_flattened(), message, value].concat())
}

/// The frame that the bytes start with, and its length; none where more bytes are due.
pub fn read_frame(bytes: &[u8]) -> Result<Option<(Frame, usize)>, String> {
    if bytes.first().is_some_and(|first| *first != 0x46) {
        return Err(format!("a frame starts with 46, not {:02x}", bytes[0]));
    }
    let Some(&[_, m0, m1, m2, m3, v0, v1, v2, v3]) = bytes.first_chunk::<HEAD>() else { return Ok(None) };
    let (message, value) = (u32::from_be_bytes([m0, m1, m2, m3]) as usize, u32::from_be_bytes([v0, v1, v2, v3]) as usize);
    limited(message, value)?;
    let end = HEAD + message + value;
    let parts = bytes.get(HEAD..end).map(|parts| parts.split_at(message));
    Ok(parts.map(|(message, value)| (Frame { message: message.to_vec(), value: value.to_vec() }, end)))
}

fn limited(message: usize, value: usize) -> Result<(), String> {
    if message > MOST_MESSAGE {
        return Err(format!("a message of {message} bytes, where a frame takes at most {MOST_MESSAGE}"));
    }
    if value > MOST_VALUE {
        return Err(format!("a value of {value} bytes, where a frame takes at most {MOST_VALUE}"));
    }
    Ok(())
}

#[cfg(test)]
mod tests {
    use super::*;

    const MINUS_ONE: [u8; 10] = [0xff, 0xff, 0xff, 0xff, 0xff, 0xff, 0xff, 0xff, 0xff, 0x01];

    /// Document 01, W1 and W2.
    const NOOP_RESPONSE: [u8; 12] = [0x0a, 0x06, 0x18, 0x01, 0x30, 0x02, 0x38, 0x1d, 0x1a, 0x02, 0x08, 0x01];
    const CLOSING: [u8; 21] = [0x46, 0, 0, 0, 0x0c, 0, 0, 0, 0, 0x20, 0x03, 0x3a, 0x08, 0x0a, 0x02, 0x18, 0x01, 0x1a, 0x02, 0x08, 0x14];

    /// Protocol Buffers' guide to its encoding: 150 in field 1, "testing" in field 2, and the first message in field 3 of another.
    #[test]
    fn the_examples_of_the_guide() {
        assert_eq!(Message::default().number(1, 150).done(), b"\x08\x96\x01");
        assert_eq!(Message::default().bytes(2, b"testing".as_slice()).done(), b"\x12\x07testing");
        assert_eq!(Message::default().message(3, Message::default().number(1, 150)).done(), b"\x1a\x03\x08\x96\x01");
        let read = Fields::read(b"\x12\x07testing\x1a\x03\x08\x96\x01").unwrap();
        assert_eq!(read.bytes(2).unwrap(), Some(b"testing".as_slice()));
        assert_eq!(read.message(3).unwrap().number(1).unwrap(), Some(150));
    }

    #[test]
    fn the_ends_of_64_bits() {
        for (number, bytes) in [(-1, &MINUS_ONE[..]), (0, &[0]), (127, &[0x7f]), (128, &[0x80, 0x01]), (300, &[0xac, 0x02])] {
            let field = [&[0x08], bytes].concat();
            assert_eq!(Message::default().number(1, number).done(), field);
            assert_eq!(Fields::read(&field).unwrap().number(1).unwrap(), Some(number));
        }
        assert_eq!(Fields::read(b"\x08\x80\x80\x80\x80\x80\x80\x80\x80\x80\x00").unwrap().number(1).unwrap(), Some(0));
        assert!(Fields::read(b"\x08\xff\xff\xff\xff\xff\xff\xff\xff\xff\x02").is_err());
        assert!(Fields::read(b"\x08\x80\x80\x80\x80\x80\x80\x80\x80\x80\x80\x00").is_err());
    }

    #[test]
    fn w1_is_read_and_written() {
        let read = Fields::read(&NOOP_RESPONSE).unwrap();
        let header = read.message(1).unwrap();
        assert_eq!([3, 6, 7].map(|field| header.number(field).unwrap()), [Some(1), Some(2), Some(29)]);
        assert_eq!(read.bytes(2).unwrap(), None);
        assert_eq!(read.message(3).unwrap().number(1).unwrap(), Some(1));
        let header = Message::default().number(1, None).number(3, 1).number(6, 2).number(7, 29);
        assert_eq!(Message::default().message(1, header).message(3, Message::default().number(1, 1)).done(), NOOP_RESPONSE);
    }

    #[test]
    fn w2_is_read_and_written() {
        let (read, taken) = read_frame(&[&CLOSING[..], b"more"].concat()).unwrap().unwrap();
        assert_eq!((taken, read.value.len()), (21, 0));
        let message = Fields::read(&read.message).unwrap();
        assert_eq!(message.number(4).unwrap(), Some(3));
        let command = Fields::read(message.bytes(7).unwrap().unwrap()).unwrap();
        assert_eq!(command.message(3).unwrap().number(1).unwrap(), Some(20));
        assert_eq!(frame(&read.message, &[]).unwrap(), CLOSING);
    }

    #[test]
    fn a_start_of_a_frame_wants_more() {
        let whole = [&[0x46, 0, 0, 0, 2, 0, 0, 0, 3], b"mmvvv".as_slice()].concat();
        for length in 0..whole.len() {
            assert!(read_frame(&whole[..length]).unwrap().is_none(), "{length}");
        }
        let (read, taken) = read_frame(&whole).unwrap().unwrap();
        assert_eq!((read.message.as_slice(), read.value.as_slice(), taken), (b"mm".as_slice(), b"vvv".as_slice(), 14));
    }

    /// The protocol has floats as four bytes, little-endian: 1.5 is 3fc00000.
    #[test]
    fn fixed_fields_are_read_and_skipped() {
        let read = Fields::read(b"\x15\x00\x00\xc0\x3f\x09\x01\x02\x03\x04\x05\x06\x07\x08\x18\x05").unwrap();
        assert_eq!(read.float(2).unwrap(), Some(1.5));
        assert_eq!(read.number(3).unwrap(), Some(5));
        assert!(read.number(1).is_err() && read.bytes(2).is_err() && read.float(3).is_err());
    }

    #[test]
    fn what_is_wrong_is_refused() {
        for bytes in [
            &b"\x08"[..],
            b"\x80",
            b"\x00\x00",
            b"\x0b",
            b"\x0c",
            b"\x0f",
            b"\x0a\x02a",
            b"\x0d\x00\x00\x00",
            b"\x09\x00",
            b"\x80\x80\x80\x80\x10\x00",
        ] {
            assert!(Fields::read(bytes).is_err(), "{bytes:x?}");
        }
        let huge = [&[0x0a], &MINUS_ONE[..], b"a"].concat();
        assert!(Fields::read(&huge).is_err());
        assert!(Fields::read(b"\x08\x01\x08\x01").unwrap().number(1).is_err());
        for bytes in
            [&b"\x47"[..], b"\x46\0\0\x20\x01\0\0\0\0", b"\x46\0\0\0\0\0\0\x04\x01", &[0x46, 255, 255, 255, 255, 255, 255, 255, 255]]
        {
            assert!(read_frame(bytes).is_err(), "{bytes:x?}");
        }
        assert!(frame(&[0; MOST_MESSAGE + 1], &[]).is_err() && frame(&[], &[0; MOST_VALUE + 1]).is_err());
    }

    fn read_all(bytes: &[u8]) {
        let Ok(fields) = Fields::read(bytes) else { return };
        for field in 1..8 {
            let _ = (fields.number(field), fields.float(field), fields.each(field), fields.message(field));
        }
    }

    #[test]
    fn no_bytes_are_too_strange_to_read() {
        for change in 0..CLOSING.len() * 256 {
            let mut changed = CLOSING;
            changed[change / 256] = (change % 256) as u8;
            let _ = read_frame(&changed);
            read_all(&changed);
            read_all(&changed[9..]);
        }
    }
}
