//! The proved calls of include/ridgeladle.h. What the host owes them is kept here, and all `unsafe` of the program is in this file and in `system`: each length is that of the
//! slice beside it, fixed lengths are those of arrays, and slices that Rust lends at once never overlap where one of them may be written.
#![allow(unsafe_code)]

pub const BLOCK: usize = 512;
pub const MOST_BLOCKS: usize = 128;
pub const RECORD: usize = 2960;
pub const CONNECTION: usize = 32;
pub const READINGS: usize = 134;
pub const REPLY: usize = 4096;
/// The longest value that a block holds.
pub const MOST_STORED: usize = 384;

/// The longest frame: head, message and value part at their limits. Input of this length is never a proper start of one.
pub const MOST_FRAME: usize = 9 + 8192 + 1024;

/// Refusals, by number.
pub const STORE_BAD: u32 = 2;
pub const DEVICE_BAD: u32 = 3;
pub const MORE: u32 = 5;

/// Kinetic's status of a PUT that found no blank block.
pub const NO_SPACE: u8 = 14;

unsafe extern "C" {
    fn ridgeladle_format(store: *mut u8, store_len: usize, record: *mut u8, key: *const u8, key_len: usize) -> u32;
    fn ridgeladle_connect(connection: *mut u8, number: i64, protected: u8);
    fn ridgeladle_answer(
        store: *mut u8,
        store_len: usize,
        record: *mut u8,
        connection: *mut u8,
        readings: *const u8,
        readings_len: usize,
        input: *const u8,
        input_len: usize,
        out: *mut u8,
        out_len: usize,
        counts: *mut u64,
    ) -> u32;
    fn ridgeladle_find(store: *const u8, store_len: usize, key: *const u8, key_len: usize, part: *mut u64) -> u32;
    fn ridgeladle_rescue(store: *mut u8, store_len: usize, report: *mut u8, report_len: usize) -> u32;
    fn ridgeladle_sha1(text: *const u8, text_len: usize, digest: *mut u8) -> u32;
    fn ridgeladle_hmac(key: *const u8, key_len: usize, text: *const u8, text_len: usize, digest: *mut u8) -> u32;
}

/// Makes the record and a store of blank blocks; the number of a refusal where the store's length or the key is wrong.
pub fn format(store: &mut [u8], record: &mut [u8; RECORD], key: &[u8]) -> Result<(), u32> {
    refused(unsafe { ridgeladle_format(store.as_mut_ptr(), store.len(), record.as_mut_ptr(), key.as_ptr(), key.len()) })
}

pub fn connect(number: i64, protected: bool) -> [u8; CONNECTION] {
    let mut connection = [0; CONNECTION];
    unsafe { ridgeladle_connect(connection.as_mut_ptr(), number, protected.into()) };
    connection
}

/// Whether the box has closed a connection.
pub fn closed(connection: &[u8; CONNECTION]) -> bool {
    connection[9] != 0
}

/// Whether a request was accepted on a connection: its sequence counted, so it was signed right, and with this connection's number.
pub fn accepted(connection: &[u8; CONNECTION]) -> bool {
    connection[10] != 0
}

/// How many bytes of the input were taken, and how many of `out` written; or the number of a refusal, and nothing is changed.
pub fn answer(
    store: &mut [u8],
    record: &mut [u8; RECORD],
    connection: &mut [u8; CONNECTION],
    readings: &[u8; READINGS],
    input: &[u8],
    out: &mut [u8; REPLY],
) -> Result<(usize, usize), u32> {
    let mut counts = [0u64; 2];
    refused(unsafe {
        ridgeladle_answer(
            store.as_mut_ptr(),
            store.len(),
            record.as_mut_ptr(),
            connection.as_mut_ptr(),
            readings.as_ptr(),
            READINGS,
            input.as_ptr(),
            input.len(),
            out.as_mut_ptr(),
            REPLY,
            counts.as_mut_ptr(),
        )
    })?;
    Ok((counts[0] as usize, counts[1] as usize))
}

/// The status of a reply: the last byte of its message, since it is the last field of the last field, and every status is below 128.
pub fn status(reply: &[u8; REPLY]) -> u8 {
    let message = u32::from_be_bytes([reply[1], reply[2], reply[3], reply[4]]) as usize;
    reply.get(8 + message).copied().unwrap_or_default()
}

/// Whether a store meets the block rules.
pub fn store_good(store: &[u8]) -> bool {
    let mut part = [0u64; 2];
    unsafe { ridgeladle_find(store.as_ptr(), store.len(), [].as_ptr(), 0, part.as_mut_ptr()) != STORE_BAD }
}

/// Whether a record meets the ACL rules: an answer that is asked for with no input refuses it if not.
pub fn record_good(record: &[u8; RECORD]) -> bool {
    let (mut blank, mut record, mut connection, mut out) = ([0; BLOCK], *record, [0; CONNECTION], [0; REPLY]);
    answer(&mut blank, &mut record, &mut connection, &[0; READINGS], &[], &mut out) != Err(DEVICE_BAD)
}

/// Makes a good store of what is left of one, and says what became of each block; the number of a refusal where the store's length is wrong.
pub fn rescue(store: &mut [u8]) -> Result<Vec<u8>, u32> {
    let mut report = vec![0; store.len() / BLOCK];
    refused(unsafe { ridgeladle_rescue(store.as_mut_ptr(), store.len(), report.as_mut_ptr(), report.len()) })?;
    Ok(report)
}

/// None for a text of 2^61 bytes or more.
pub fn sha1(text: &[u8]) -> Option<[u8; 20]> {
    let mut digest = [0; 20];
    refused(unsafe { ridgeladle_sha1(text.as_ptr(), text.len(), digest.as_mut_ptr()) }).ok().map(|()| digest)
}

/// None for a key over 128 bytes or a text over 1,048,576.
pub fn hmac(key: &[u8], text: &[u8]) -> Option<[u8; 20]> {
    let mut digest = [0; 20];
    refused(unsafe { ridgeladle_hmac(key.as_ptr(), key.len(), text.as_ptr(), text.len(), digest.as_mut_ptr()) }).ok().map(|()| digest)
}

fn refused(number: u32) -> Result<(), u32> {
    if number == 0 { Ok(()) } else { Err(number) }
}
