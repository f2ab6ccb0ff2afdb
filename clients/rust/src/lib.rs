//! Requests keys of a daemon reqkeyd, and makes keys for it: all sixteen requests of docs/PROTOCOL.md, by the standard library alone.
//!
//! A client connects to the daemon's socket and says for whom it acts:
//!
//! ```
//! let mut session = reqkey::Session::connect("/run/reqkeyd/socket")?;
//! session.hello(1000, 1000, 0, 0)?;
//! let payload = session.get("user", "mail:joe", Some("letter"))?;
//! # Ok::<(), reqkey::Error>(())
//! ```
//!
//! A plain handler speaks over its standard streams. It is started with the serial of its key, by a line of the configuration like
//! `create user mail:* * /path/of/handler %k`, and prints nothing on standard output: `Session::handle(key)?.instantiate(key, b"a payload", ring::NONE)?`.
//!
//! A request may wait as long as a handler takes. What [`Error`] says tells whether the session goes on.

use std::fmt;
use std::fs::File;
use std::io::{self, Read, Write};
use std::os::fd::FromRawFd;
use std::os::unix::net::UnixStream;
use std::path::{Path, PathBuf};

/// Why a request was not carried out.
#[derive(Debug)]
pub enum Error {
    /// The daemon refuses it. The session goes on.
    Refused(Request, Errno),
    /// A text or payload has more than 65,535 bytes, or all of a request more than 65,536. Nothing was sent, and the session goes on.
    Unspelt(Request),
    /// The connection has ended before the reply came whole, or the session was over.
    Ended(Request),
    /// What came is no reply to the request. The session is over.
    Malformed(Request),
    /// A read or write has failed, or the connecting. The session is over.
    System(Request, io::Error),
}

/// A request by its name, and the path of the socket of a client.
#[derive(Clone, Debug)]
pub struct Request {
    pub name: &'static str,
    pub path: Option<PathBuf>,
}

impl fmt::Display for Request {
    fn fmt(&self, f: &mut fmt::Formatter<'_>) -> fmt::Result {
        match &self.path {
            Some(path) => write!(f, "{}: {}", path.display(), self.name),
            None => f.write_str(self.name),
        }
    }
}

impl fmt::Display for Error {
    fn fmt(&self, f: &mut fmt::Formatter<'_>) -> fmt::Result {
        match self {
            Error::Refused(what, errno) => write!(f, "{what}: {errno:?} ({})", *errno as u8),
            Error::Unspelt(what) => write!(f, "{what}: the arguments do not fit a frame"),
            Error::Ended(what) => write!(f, "{what}: the connection has ended"),
            Error::Malformed(what) => write!(f, "{what}: what came is not a reply to this request"),
            Error::System(what, fault) => write!(f, "{what}: {fault}"),
        }
    }
}

impl std::error::Error for Error {}

/// Why a request is refused: Linux's numbers, on every system.
#[derive(Clone, Copy, Debug, PartialEq, Eq)]
#[repr(u8)]
pub enum Errno {
    EPERM = 1,
    ENOENT = 2,
    ENOMEM = 12,
    EACCES = 13,
    EBUSY = 16,
    EINVAL = 22,
    EDEADLK = 35,
    EDQUOT = 122,
    ENOKEY = 126,
    EKEYEXPIRED = 127,
    EKEYREVOKED = 128,
    EKEYREJECTED = 129,
}

impl Errno {
    fn of(number: u8) -> Option<Errno> {
        use Errno::*;
        [EPERM, ENOENT, ENOMEM, EACCES, EBUSY, EINVAL, EDEADLK, EDQUOT, ENOKEY, EKEYEXPIRED, EKEYREVOKED, EKEYREJECTED]
            .into_iter()
            .find(|errno| *errno as u8 == number)
    }
}

/// The rings that a request can name without their serials.
pub mod ring {
    pub const NONE: i32 = 0;
    pub const THREAD: i32 = -1;
    pub const PROCESS: i32 = -2;
    pub const SESSION: i32 = -3;
    pub const USER: i32 = -4;
    /// The destination of the key whose authority is assumed.
    pub const REQUESTOR: i32 = -8;
}

/// Where keys go that are requested into no ring, for [`Session::default`].
pub mod setting {
    pub const KEEP: i32 = -1;
    pub const DEFAULT: i32 = 0;
    pub const THREAD: i32 = 1;
    pub const PROCESS: i32 = 2;
    pub const SESSION: i32 = 3;
    pub const USER: i32 = 4;
    pub const REQUESTOR: i32 = 7;
}

/// In the place of a key in [`Session::read`]: the authority that is assumed, whose payload is the callout.
pub const AUTHORITY: i32 = -7;
/// For [`Session::hello`]: a thread ring besides the session and the user ring.
pub const WITH_THREAD: u8 = 1;
/// For [`Session::hello`]: a process ring besides these.
pub const WITH_PROCESS: u8 = 2;

/// The serials of a client's rings, 0 for one that there is not.
#[derive(Clone, Copy, Debug, Default, PartialEq, Eq)]
pub struct Rings {
    pub thread: u32,
    pub process: u32,
    pub session: u32,
    pub user: u32,
}

const LONGEST: usize = 65_536; // bytes of a frame's body at most
const GREATEST: u32 = 2_147_483_647; // the greatest serial

const NUMBER: u8 = 0;
const BYTES: u8 = 1;
const RINGS: u8 = 2;
const REFUSED: u8 = 3;

/// Requests, and their replies, over a stream each way.
pub struct Session {
    input: Box<dyn Read + Send>,
    output: Box<dyn Write + Send>,
    path: Option<PathBuf>,
    over: bool,
}

/// What ends a request, before it is known whose.
enum Fault {
    Refused(Errno),
    Ended,
    Malformed,
    System(io::Error),
}

type Result<T> = std::result::Result<T, Error>;

impl Session {
    /// Connects to the daemon's socket; `hello` comes next. A client's rings go with the session when it is dropped, but for the user ring.
    pub fn connect(path: impl AsRef<Path>) -> Result<Session> {
        let path = path.as_ref().to_path_buf();
        let failed = |fault| Error::System(Request { name: "connect", path: Some(path.clone()) }, fault);
        if path.as_os_str().is_empty() {
            return Err(failed(io::ErrorKind::NotFound.into())); // it would name what anybody may listen at (unix(7), "abstract")
        }
        let output = UnixStream::connect(&path).map_err(failed)?;
        let input = output.try_clone().map_err(failed)?;
        Ok(Session { path: Some(path), ..Session::new(input, output) })
    }

    /// Speaks over these streams.
    pub fn new(input: impl Read + Send + 'static, output: impl Write + Send + 'static) -> Session {
        Session { input: Box::new(input), output: Box::new(output), path: None, over: false }
    }

    /// Speaks over the standard streams, as a plain handler that has assumed nothing yet. They stay open.
    pub fn streams() -> Session {
        // SAFETY: nobody closes what is leaked here, and the program has these descriptors for its whole life.
        let [input, output] = [0, 1].map(|it| -> &'static File { Box::leak(Box::new(unsafe { File::from_raw_fd(it) })) });
        Session::new(input, output)
    }

    /// Speaks over the standard streams, and has assumed the authority of its key.
    pub fn handle(key: i32) -> Result<Session> {
        let mut session = Session::streams();
        session.assume(key)?;
        Ok(session)
    }

    /// Says for whom a client acts, once, with the rings of the flags, in a new session ring for 0 or else in the one that it joins.
    pub fn hello(&mut self, uid: u32, gid: u32, flags: u8, join: u32) -> Result<Rings> {
        let fields = self.ask(Ask::new("HELLO", 1).u32(uid).u32(gid).u8(flags).u32(join), RINGS)?;
        let at = |place: usize| number(&fields[4 * place..]);
        Ok(Rings { thread: at(0), process: at(1), session: at(2), user: at(3) })
    }

    /// The serial of a key of this name, linked in the ring. If there is none and a callout is given, a handler makes it, and this waits for it.
    pub fn request(&mut self, kind: &str, description: &str, callout: Option<&str>, ring: i32) -> Result<i32> {
        let ask = Ask::new("REQUEST", 2).block(kind.as_bytes()).block(description.as_bytes());
        let ask = match callout {
            None => ask.u8(0),
            Some(text) => ask.u8(1).block(text.as_bytes()),
        };
        self.serial(ask.i32(ring))
    }

    /// The payload of a key of this name: `request` into the user ring, and `read`. A key may expire between them: after EKEYEXPIRED both are sent again.
    pub fn get(&mut self, kind: &str, description: &str, callout: Option<&str>) -> Result<Vec<u8>> {
        let mut once = || self.request(kind, description, callout, ring::USER).and_then(|key| self.read(key));
        match once() {
            Err(Error::Refused(_, Errno::EKEYEXPIRED)) => once(),
            done => done,
        }
    }

    /// Assumes a handler's authority over its key; 0 lays it down.
    pub fn assume(&mut self, key: i32) -> Result<()> {
        self.done(Ask::new("ASSUME", 3).i32(key))
    }

    /// Gives the key that a handler makes its payload, of 1 to 32,767 bytes, and links it in one more ring.
    pub fn instantiate(&mut self, key: i32, payload: &[u8], ring: i32) -> Result<()> {
        self.done(Ask::new("INSTANTIATE", 4).i32(key).block(payload).i32(ring))
    }

    /// Says of the key that a handler makes that there is none, for so many seconds: requests are answered ENOKEY.
    pub fn negate(&mut self, key: i32, seconds: u32, ring: i32) -> Result<()> {
        self.done(Ask::new("NEGATE", 5).i32(key).u32(seconds).i32(ring))
    }

    /// As `negate` with one of the errors 126 to 129.
    pub fn reject(&mut self, key: i32, seconds: u32, error: u32, ring: i32) -> Result<()> {
        self.done(Ask::new("REJECT", 6).i32(key).u32(seconds).u32(error).i32(ring))
    }

    /// The payload of a key.
    pub fn read(&mut self, key: i32) -> Result<Vec<u8>> {
        self.ask(Ask::new("READ", 7).i32(key), BYTES)
    }

    /// `type;uid;state;description` of a key. The states are valid, negative, building, expired and revoked.
    pub fn describe(&mut self, key: i32) -> Result<String> {
        self.text(Ask::new("DESCRIBE", 8).i32(key))
    }

    /// Marks a key as revoked, for good.
    pub fn revoke(&mut self, key: i32) -> Result<()> {
        self.done(Ask::new("REVOKE", 9).i32(key))
    }

    /// Lets a key expire in so many seconds, or never for 0.
    pub fn timeout(&mut self, key: i32, seconds: u32) -> Result<()> {
        self.done(Ask::new("TIMEOUT", 10).i32(key).u32(seconds))
    }

    /// Links a key in a ring; another one of its name is unlinked there.
    pub fn link(&mut self, key: i32, ring: i32) -> Result<()> {
        self.done(Ask::new("LINK", 11).i32(key).i32(ring))
    }

    /// Unlinks a key from a ring. A key without links is gone.
    pub fn unlink(&mut self, key: i32, ring: i32) -> Result<()> {
        self.done(Ask::new("UNLINK", 12).i32(key).i32(ring))
    }

    /// Unlinks all keys of a ring.
    pub fn clear(&mut self, ring: i32) -> Result<()> {
        self.done(Ask::new("CLEAR", 13).i32(ring))
    }

    /// Sets where keys go that are requested into no ring, and returns the setting before; `setting::KEEP` only reads it.
    pub fn default(&mut self, setting: i32) -> Result<i32> {
        let before = self.number(Ask::new("DEFAULT", 14).i32(setting), |value| value <= 4 || value == 7)?;
        Ok(before as i32)
    }

    /// Makes a key with its payload, of 1 to 32,767 bytes, links it in a ring, and returns its serial.
    pub fn add(&mut self, kind: &str, description: &str, payload: &[u8], ring: i32) -> Result<i32> {
        self.serial(Ask::new("ADD", 15).block(kind.as_bytes()).block(description.as_bytes()).block(payload).i32(ring))
    }

    /// The callout of the request for a handler's key.
    pub fn callout(&mut self) -> Result<String> {
        self.text(Ask::new("CALLOUT", 16))
    }

    fn done(&mut self, ask: Ask) -> Result<()> {
        self.number(ask, |value| value == 0).map(drop)
    }

    fn serial(&mut self, ask: Ask) -> Result<i32> {
        self.number(ask, |value| (1..=GREATEST).contains(&value)).map(|value| value as i32)
    }

    fn number(&mut self, ask: Ask, fits: impl Fn(u32) -> bool) -> Result<u32> {
        let name = ask.name;
        let value = number(&self.ask(ask, NUMBER)?);
        if fits(value) { Ok(value) } else { Err(self.ends(name, Fault::Malformed)) }
    }

    fn text(&mut self, ask: Ask) -> Result<String> {
        let name = ask.name;
        String::from_utf8(self.ask(ask, BYTES)?).map_err(|_| self.ends(name, Fault::Malformed))
    }

    /// Sends a request, and returns what is in its reply, which has to be of this kind.
    fn ask(&mut self, ask: Ask, kind: u8) -> Result<Vec<u8>> {
        let name = ask.name;
        if self.over {
            return Err(self.ends(name, Fault::Ended));
        }
        if ask.unspelt || ask.body.len() > LONGEST {
            return Err(Error::Unspelt(Request { name, path: self.path.clone() }));
        }
        self.exchange(&ask.body).and_then(|body| fields(&body, kind)).map_err(|fault| self.ends(name, fault))
    }

    /// Writes a body as a frame, and reads that of the reply.
    fn exchange(&mut self, body: &[u8]) -> std::result::Result<Vec<u8>, Fault> {
        let frame = [&(body.len() as u32).to_be_bytes(), body].concat();
        self.output.write_all(&frame).and_then(|()| self.output.flush()).map_err(Fault::System)?;
        let length = number(&self.take(4)?) as usize;
        if length == 0 || length > LONGEST { Err(Fault::Malformed) } else { self.take(length) }
    }

    fn take(&mut self, count: usize) -> std::result::Result<Vec<u8>, Fault> {
        let mut bytes = vec![0; count];
        self.input.read_exact(&mut bytes).map(|()| bytes).map_err(|fault| match fault.kind() {
            io::ErrorKind::UnexpectedEof => Fault::Ended,
            _ => Fault::System(fault),
        })
    }

    /// The error of a request. The session is over, but after a refusal.
    fn ends(&mut self, name: &'static str, fault: Fault) -> Error {
        self.over |= !matches!(fault, Fault::Refused(_));
        let what = Request { name, path: self.path.clone() };
        match fault {
            Fault::Refused(errno) => Error::Refused(what, errno),
            Fault::Ended => Error::Ended(what),
            Fault::Malformed => Error::Malformed(what),
            Fault::System(fault) => Error::System(what, fault),
        }
    }
}

/// What is in a reply of this kind.
fn fields(body: &[u8], kind: u8) -> std::result::Result<Vec<u8>, Fault> {
    match (body[0], &body[1..]) {
        (REFUSED, [errno]) => Err(Errno::of(*errno).map_or(Fault::Malformed, Fault::Refused)),
        (BYTES, [high, low, bytes @ ..]) if kind == BYTES && u16::from_be_bytes([*high, *low]) as usize == bytes.len() => Ok(bytes.to_vec()),
        (first, bytes) if first == kind && matches!((kind, bytes.len()), (NUMBER, 4) | (RINGS, 16)) => Ok(bytes.to_vec()),
        _ => Err(Fault::Malformed),
    }
}

fn number(bytes: &[u8]) -> u32 {
    u32::from_be_bytes([bytes[0], bytes[1], bytes[2], bytes[3]])
}

/// A request, field by field.
struct Ask {
    name: &'static str,
    body: Vec<u8>,
    unspelt: bool,
}

impl Ask {
    fn new(name: &'static str, op: u8) -> Ask {
        Ask { name, body: vec![op], unspelt: false }
    }

    fn u8(mut self, value: u8) -> Ask {
        self.body.push(value);
        self
    }

    fn u32(mut self, value: u32) -> Ask {
        self.body.extend(value.to_be_bytes());
        self
    }

    fn i32(self, value: i32) -> Ask {
        self.u32(value as u32)
    }

    fn block(mut self, bytes: &[u8]) -> Ask {
        self.unspelt |= bytes.len() > u16::MAX as usize;
        self.body.extend((bytes.len() as u16).to_be_bytes());
        self.body.extend(bytes);
        self
    }
}
