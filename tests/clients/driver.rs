//! Requests what a script says, by clients/rust, and writes a line of what came of each: as driver.c does, which tells the words.
use reqkey::{Error, Session};
use std::fmt::Write as _;
use std::fs::File;
use std::io::{self, BufRead, BufReader, Write};

fn word(text: &str) -> Vec<u8> {
    if let Some(count) = text.strip_prefix('@') {
        return vec![b'p'; count.parse().unwrap()];
    }
    let (mut made, bytes, mut at) = (Vec::new(), text.as_bytes(), 0);
    while at < bytes.len() {
        if bytes[at] == b'%' {
            made.push(u8::from_str_radix(&text[at + 1..at + 3], 16).unwrap());
            at += 3;
        } else {
            made.push(bytes[at]);
            at += 1;
        }
    }
    made
}

fn name(text: &str) -> String {
    String::from_utf8(word(text)).unwrap()
}

fn callout(text: &str) -> Option<String> {
    if text == "-" { None } else { Some(name(text)) }
}

fn signed(text: &str) -> i32 {
    text.parse().unwrap()
}

fn unsigned(text: &str) -> u32 {
    text.parse().unwrap()
}

fn told(bytes: impl AsRef<[u8]>) -> String {
    bytes.as_ref().iter().fold("bytes ".to_string(), |mut made, byte| {
        if (b'!'..=b'~').contains(byte) && *byte != b'%' {
            made.push(*byte as char);
        } else {
            write!(made, "%{byte:02X}").unwrap();
        }
        made
    })
}

fn asked(it: &mut Session, words: &[&str]) -> Result<String, Error> {
    match words {
        ["hello", uid, gid, flags, join] => {
            let rings = it.hello(unsigned(uid), unsigned(gid), unsigned(flags) as u8, unsigned(join))?;
            Ok(format!("{} {} {} {}", rings.thread, rings.process, rings.session, rings.user))
        }
        ["request", kind, described, text, ring] => it.request(&name(kind), &name(described), callout(text).as_deref(), signed(ring)).map(|key| key.to_string()),
        ["get", kind, described, text] => it.get(&name(kind), &name(described), callout(text).as_deref()).map(told),
        ["read", key] => it.read(signed(key)).map(told),
        ["describe", key] => it.describe(signed(key)).map(told),
        ["callout"] => it.callout().map(told),
        ["default", setting] => it.default(signed(setting)).map(|before| before.to_string()),
        ["add", kind, described, payload, ring] => it.add(&name(kind), &name(described), &word(payload), signed(ring)).map(|key| key.to_string()),
        _ => done(it, words).map(|()| "0".to_string()),
    }
}

fn done(it: &mut Session, words: &[&str]) -> Result<(), Error> {
    match words {
        ["assume", key] => it.assume(signed(key)),
        ["instantiate", key, payload, ring] => it.instantiate(signed(key), &word(payload), signed(ring)),
        ["negate", key, seconds, ring] => it.negate(signed(key), unsigned(seconds), signed(ring)),
        ["reject", key, seconds, error, ring] => it.reject(signed(key), unsigned(seconds), unsigned(error), signed(ring)),
        ["revoke", key] => it.revoke(signed(key)),
        ["timeout", key, seconds] => it.timeout(signed(key), unsigned(seconds)),
        ["link", key, ring] => it.link(signed(key), signed(ring)),
        ["unlink", key, ring] => it.unlink(signed(key), signed(ring)),
        ["clear", ring] => it.clear(signed(ring)),
        _ => panic!("{words:?}"),
    }
}

fn failed(error: Error) -> String {
    match error {
        Error::Refused(_, errno) => format!("{errno:?}"),
        Error::Unspelt(_) => "unspelt".into(),
        Error::Ended(_) => "ended".into(),
        Error::Malformed(_) => "malformed".into(),
        Error::System(..) => "system".into(),
    }
}

fn play(script: impl BufRead, output: &mut impl Write, mut session: Option<Session>) {
    for line in script.lines().map(Result::unwrap) {
        let words: Vec<&str> = line.split(' ').collect();
        let said = match (words[0], &mut session) {
            ("connect", _) => Session::connect(words[1]).map(|it| session = Some(it)).map(|()| "connected".to_string()),
            (_, Some(it)) => asked(it, &words),
            _ => panic!("no session"),
        };
        writeln!(output, "{}", said.unwrap_or_else(failed)).unwrap();
    }
}

fn main() {
    let words: Vec<String> = std::env::args().collect();
    if words[1] == "client" {
        play(io::stdin().lock(), &mut io::stdout(), None);
    } else {
        play(BufReader::new(File::open(&words[2]).unwrap()), &mut File::create(&words[3]).unwrap(), Some(Session::streams()));
    }
}
