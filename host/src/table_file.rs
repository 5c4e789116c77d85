//! The table of identities, from its text file to the bytes of Security. What Kinetic forbids is for the box to refuse; what can't be read is refused here.

use crate::failure::{Failure, Result};
use crate::wire::Message;
use crate::{input, key, text};
use std::ffi::OsStr;
use std::os::unix::ffi::OsStrExt;
use std::path::Path;

const MOST_FILE: usize = 65536;

const PERMISSIONS: [(&str, i64); 9] = [
    ("read", 0),
    ("write", 1),
    ("delete", 2),
    ("range", 3),
    ("setup", 4),
    ("p2pop", 5),
    ("getlog", 7),
    ("security", 8),
    ("power_management", 9),
];

struct Entry {
    line: usize,
    identity: i64,
    key: Option<Vec<u8>>,
    scopes: Vec<Vec<u8>>,
}

/// The bytes of Security that a file's table stands for, and its identities.
pub fn security(path: &Path) -> Result<(Vec<u8>, Vec<i64>)> {
    let text = input::file(path, MOST_FILE)?;
    let folder = path.parent().unwrap_or(Path::new(""));
    table(&text, folder).map_err(|(line, why)| Failure { message: format!("{}: line {line}: {}", path.display(), why.message), ..why })
}

/// As above, from the file's text; a failure with the number of its line.
fn table(text: &[u8], folder: &Path) -> std::result::Result<(Vec<u8>, Vec<i64>), (usize, Failure)> {
    let mut entries: Vec<Entry> = Vec::new();
    for (line, number) in text.split(|byte| *byte == b'\n').zip(1..) {
        read_line(&words(line), number, &mut entries, folder).map_err(|why| (number, why))?;
    }
    let identities = entries.iter().map(|entry| entry.identity).collect();
    let acls = entries.into_iter().map(|entry| (entry.line, acl(entry)));
    let acls = acls.map(|(line, acl)| acl.map_err(|why| (line, why))).collect::<std::result::Result<Vec<_>, _>>()?;
    Ok((acls.into_iter().fold(Message::default(), |table, acl| table.message(2, acl)).done(), identities))
}

/// The words of a line up to a comment.
fn words(line: &[u8]) -> Vec<&[u8]> {
    let words = line.split(u8::is_ascii_whitespace).filter(|word| !word.is_empty());
    words.take_while(|word| !word.starts_with(b"#")).collect()
}

fn read_line(words: &[&[u8]], line: usize, entries: &mut Vec<Entry>, folder: &Path) -> Result<()> {
    let [first, rest @ ..] = words else { return Ok(()) };
    if *first == b"identity" {
        entries.push(Entry { line, identity: number(only(first, rest)?)?, key: None, scopes: Vec::new() });
        return Ok(());
    }
    let entry = entries.last_mut().ok_or_else(|| Failure::data("the table starts with identity N"))?;
    if *first == b"scope" {
        entry.scopes.push(scope(rest)?);
        return Ok(());
    }
    let key = read_key(first, rest, folder)?;
    if entry.key.replace(key).is_some() {
        return Err(Failure::data(format!("identity {} has a second key", entry.identity)));
    }
    Ok(())
}

fn read_key(kind: &[u8], rest: &[&[u8]], folder: &Path) -> Result<Vec<u8>> {
    match kind {
        b"key" => bytes(only(kind, rest)?),
        b"key-file" => key::from_file(&folder.join(OsStr::from_bytes(&bytes(only(kind, rest)?)?))),
        b"key-env" => {
            let name = only(kind, rest)?;
            let key = std::str::from_utf8(name).ok().and_then(key::from_environment);
            key.ok_or_else(|| Failure::data(format!("{} is not in the environment", text::shown(name))))
        }
        _ => Err(Failure::data(format!("{}: wanted identity, key-file, key-env, key or scope", text::shown(kind)))),
    }
}

/// The bytes of Scope: permissions, then its limits in any order.
fn scope(words: &[&[u8]]) -> Result<Vec<u8>> {
    let permissions: Vec<i64> = words.iter().map_while(|word| permission(word)).collect();
    let (mut offset, mut value, mut tls) = (None, None, None);
    let mut limits = words[permissions.len()..].iter();
    while let Some(word) = limits.next() {
        let mut next = || limits.next().ok_or_else(|| Failure::data(format!("{} wants a word after it", text::shown(word))));
        let twice = match *word {
            b"offset" => offset.replace(number(next()?)?).is_some(),
            b"value" => value.replace(bytes(next()?)?).is_some(),
            b"tls" => tls.replace(1).is_some(),
            _ => return Err(Failure::data(format!("{}: wanted permissions, then offset N, value TEXT or tls", text::shown(word)))),
        };
        if twice {
            return Err(Failure::data(format!("{} is there twice", text::shown(word))));
        }
    }
    let limited = Message::default().number(1, offset).bytes(2, value.as_deref());
    Ok(permissions.into_iter().fold(limited, |scope, permission| scope.number(3, permission)).number(4, tls).done())
}

fn permission(word: &[u8]) -> Option<i64> {
    PERMISSIONS.iter().find(|(name, _)| name.as_bytes() == word).map(|(_, number)| *number)
}

fn acl(entry: Entry) -> Result<Message> {
    let Entry { identity, key, scopes, .. } = entry;
    let key = key.ok_or_else(|| Failure::data(format!("identity {identity} has no key")))?;
    if scopes.is_empty() {
        return Err(Failure::data(format!("identity {identity} has no scope")));
    }
    let named = Message::default().number(1, identity).bytes(2, key.as_slice());
    Ok(scopes.iter().fold(named, |acl, scope| acl.bytes(4, scope.as_slice())))
}

fn only<'a>(name: &[u8], rest: &[&'a [u8]]) -> Result<&'a [u8]> {
    match rest {
        [word] => Ok(word),
        _ => Err(Failure::data(format!("{} wants one word after it", text::shown(name)))),
    }
}

fn bytes(word: &[u8]) -> Result<Vec<u8>> {
    text::bytes_of(word).map_err(Failure::data)
}

fn number(word: &[u8]) -> Result<i64> {
    let number = std::str::from_utf8(word).ok().and_then(|word| word.parse().ok());
    number.ok_or_else(|| Failure::data(format!("{}: a whole number of 64 bits is wanted", text::shown(word))))
}

#[cfg(test)]
mod tests {
    use super::*;

    fn of(text: &str) -> std::result::Result<Vec<u8>, (usize, String)> {
        table(text.as_bytes(), Path::new("")).map(|(bytes, _)| bytes).map_err(|(line, why)| (line, why.message))
    }

    /// Worked out by hand: document 003's numbers (acl 2; identity 1, key 2, scope 4; offset 1, value 2, permission 3, TlsRequired 4) as tags
    /// 12; 08, 12, 22; 08, 12, 18, 20.
    #[test]
    fn a_table_becomes_security() {
        let text = "# all\n\nidentity 1 # the office\n key k\n scope read security\nidentity -1\n  key a\\x20\\\\#\n\
                    scope write tls value t/7# offset 3\r\nscope power_management";
        let first = b"\x08\x01\x12\x01k\x22\x04\x18\x00\x18\x08";
        let second =
            b"\x08\xff\xff\xff\xff\xff\xff\xff\xff\xff\x01\x12\x04a \\#\x22\x0c\x08\x03\x12\x04t/7#\x18\x01\x20\x01\x22\x02\x18\x09";
        assert_eq!(of(text).unwrap(), [b"\x12\x0b".as_slice(), first, b"\x12\x23", second].concat());
    }

    /// Document 003's permissions; there is no 6.
    #[test]
    fn every_permission_has_its_number() {
        let text = "identity 1\nkey k\nscope read write delete range setup p2pop getlog security power_management";
        let scope = [0, 1, 2, 3, 4, 5, 7, 8, 9].map(|permission| [0x18, permission]);
        assert!(of(text).unwrap().ends_with(scope.as_flattened()));
    }

    #[test]
    fn what_kinetic_forbids_is_sent() {
        assert_eq!(of("# nobody").unwrap(), b"");
        assert_eq!(of("identity 1\nkey k\nscope offset -1").unwrap().len(), 2 + 2 + 3 + 2 + 11);
        let nine: String = (0..9).map(|_| "identity 1\nkey k\nscope read\n").collect();
        assert_eq!(of(&nine).unwrap().len(), 9 * (2 + 2 + 3 + 2 + 2));
    }

    #[test]
    fn what_is_wrong_is_named_with_its_line() {
        let wrong = [
            ("\nkey k", 2),
            ("identity", 1),
            ("identity 1 2", 1),
            ("identity 9223372036854775808", 1),
            ("identity one", 1),
            ("identity 1\nkey k\nkey k", 3),
            ("identity 1\nkey \\n", 2),
            ("identity 1\nkey #k", 2),
            ("identity 1\nkey-env =", 2),
            ("identity 1\npassword k", 2),
            ("identity 1\nkey k\n\nscope reed", 4),
            ("identity 1\nkey k\nscope read value", 3),
            ("identity 1\nkey k\nscope read value # nothing", 3),
            ("identity 1\nkey k\nscope read offset x", 3),
            ("identity 1\nkey k\nscope read tls tls", 3),
            ("identity 1\nkey k\nscope tls read", 3),
            ("identity 1\nkey k\nscope read\nidentity 2\nscope read\nidentity 3\nkey k\nscope read", 4),
            ("identity 1\nkey k", 1),
        ];
        for (text, line) in wrong {
            assert_eq!(of(text).map_err(|(line, _)| line), Err(line), "{text}");
        }
    }
}
