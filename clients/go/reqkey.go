// Package reqkey requests keys of a daemon reqkeyd, and makes keys for it: all sixteen requests of docs/PROTOCOL.md, by the standard library alone.
//
// A client connects to the daemon's socket and says for whom it acts:
//
//	session, err := reqkey.Dial("/run/reqkeyd/socket")
//	if err == nil {
//		_, err = session.Hello(1000, 1000, 0, 0)
//	}
//	payload, err := session.Get("user", "mail:joe", reqkey.Callout("letter"))
//
// A plain handler speaks over its standard streams. It is started with the serial of its key, by a line of the configuration like
// `create user mail:* * /path/of/handler %k`, and prints nothing on standard output:
//
//	session, err := reqkey.Handle(key)
//	err = session.Instantiate(key, payload, 0)
//
// An error is one of these, found by errors.Is, and names the path of the socket and the request:
//
//   - an Errno, as reqkey.ENOKEY: the daemon refuses the request. The session goes on.
//   - ErrUnspelt: no frame can hold the arguments. Nothing was sent, and the session goes on.
//   - ErrEnded, ErrMalformed, or one of the system: the session is over, and each further request is ErrEnded.
//
// A session is for one goroutine at a time. A request may wait as long as a handler takes.
package reqkey

import (
	"encoding/binary"
	"errors"
	"fmt"
	"io"
	"net"
	"os"
	"syscall"
	"unicode/utf8"
)

// Errno is why a request is refused: Linux's numbers, on every system.
type Errno uint8

const (
	EPERM        Errno = 1
	ENOENT       Errno = 2
	ENOMEM       Errno = 12
	EACCES       Errno = 13
	EBUSY        Errno = 16
	EINVAL       Errno = 22
	EDEADLK      Errno = 35
	EDQUOT       Errno = 122
	ENOKEY       Errno = 126
	EKEYEXPIRED  Errno = 127
	EKEYREVOKED  Errno = 128
	EKEYREJECTED Errno = 129
)

var names = map[Errno]string{
	EPERM: "EPERM", ENOENT: "ENOENT", ENOMEM: "ENOMEM", EACCES: "EACCES", EBUSY: "EBUSY", EINVAL: "EINVAL", EDEADLK: "EDEADLK", EDQUOT: "EDQUOT",
	ENOKEY: "ENOKEY", EKEYEXPIRED: "EKEYEXPIRED", EKEYREVOKED: "EKEYREVOKED", EKEYREJECTED: "EKEYREJECTED",
}

// Error is the name of the number.
func (e Errno) Error() string { return names[e] }

var (
	// ErrUnspelt says that a text or payload has more than 65,535 bytes, or all of a request more than 65,536.
	ErrUnspelt = errors.New("the arguments do not fit a frame")
	// ErrEnded says that the connection has ended before the reply came whole.
	ErrEnded = errors.New("the connection has ended")
	// ErrMalformed says that what came is no reply to the request.
	ErrMalformed = errors.New("what came is not a reply to this request")
)

// The rings that a request can name without their serials.
const (
	NoRing        int32 = 0
	ThreadRing    int32 = -1
	ProcessRing   int32 = -2
	SessionRing   int32 = -3
	UserRing      int32 = -4
	RequestorRing int32 = -8 // the destination of the key whose authority is assumed
)

// Authority stands in the place of a key in Read: the authority that is assumed, whose payload is the callout.
const Authority int32 = -7

// For Default.
const (
	Keep             int32 = -1
	DefaultRing      int32 = 0
	DefaultThread    int32 = 1
	DefaultProcess   int32 = 2
	DefaultSession   int32 = 3
	DefaultUser      int32 = 4
	DefaultRequestor int32 = 7
)

// For Hello: which rings a client wants besides its session and its user ring.
const (
	WithThread  uint8 = 1
	WithProcess uint8 = 2
)

// Rings are the serials of a client's rings, 0 for one that there is not.
type Rings struct{ Thread, Process, Session, User uint32 }

const (
	longest  = 65536      // bytes of a frame's body at most
	greatest = 2147483647 // the greatest serial
)

// Session has requests, and their replies, over a stream each way.
type Session struct {
	in     io.Reader
	out    io.Writer
	closes func() error
	path   string
	over   bool
}

// Dial connects to the daemon's socket; Hello comes next.
func Dial(path string) (*Session, error) {
	if path == "" || path[0] == 0 || path[0] == '@' { // which net takes for a name that anybody may listen at (unix(7), "abstract")
		return nil, &net.OpError{Op: "dial", Net: "unix", Err: syscall.ENOENT}
	}
	connection, err := net.Dial("unix", path)
	if err != nil {
		return nil, err
	}
	return &Session{in: connection, out: connection, closes: connection.Close, path: path}, nil
}

// New speaks over these streams, which stay the caller's.
func New(in io.Reader, out io.Writer) *Session {
	return &Session{in: in, out: out, closes: func() error { return nil }}
}

// Streams speaks over the standard streams, as a plain handler that has assumed nothing yet. A write to a daemon that has ended is an error, and no SIGPIPE.
func Streams() (*Session, error) {
	output, err := syscall.Dup(1)
	if err != nil {
		return nil, err
	}
	return New(os.Stdin, os.NewFile(uintptr(output), "standard output")), nil
}

// Handle speaks over the standard streams, and has assumed the authority of its key.
func Handle(key int32) (*Session, error) {
	session, err := Streams()
	if err != nil {
		return nil, err
	}
	return session, session.Assume(key)
}

// Close ends the session. A client's thread and process rings go with it, and its session ring if nobody else has joined it.
func (s *Session) Close() error {
	s.over = true
	return s.closes()
}

// Callout is a callout for Request and Get, which may be empty; nil is none.
func Callout(text string) *string { return &text }

// ---- requests

// Hello says for whom a client acts, once, with the rings of the flags, in a new session ring for 0 or else in the one that it joins.
func (s *Session) Hello(uid, gid uint32, flags uint8, join uint32) (Rings, error) {
	body, err := s.ask(ask{name: "HELLO", op: 1}.u32(uid).u32(gid).u8(flags).u32(join), rings)
	if err != nil {
		return Rings{}, err
	}
	at := func(place int) uint32 { return binary.BigEndian.Uint32(body[4*place:]) }
	return Rings{at(0), at(1), at(2), at(3)}, nil
}

// Request is the serial of a key of this name, linked in the ring. If there is none and a callout is given, a handler makes it, and this waits for it.
func (s *Session) Request(kind, description string, callout *string, ring int32) (int32, error) {
	request := ask{name: "REQUEST", op: 2}.block(kind).block(description)
	if callout == nil {
		request = request.u8(0)
	} else {
		request = request.u8(1).block(*callout)
	}
	return s.serial(request.i32(ring))
}

// Get is the payload of a key of this name: Request into the user ring, and Read. A key may expire between them, so after EKEYEXPIRED both are sent again.
func (s *Session) Get(kind, description string, callout *string) ([]byte, error) {
	payload, err := s.get(kind, description, callout)
	if errors.Is(err, EKEYEXPIRED) {
		return s.get(kind, description, callout)
	}
	return payload, err
}

func (s *Session) get(kind, description string, callout *string) ([]byte, error) {
	key, err := s.Request(kind, description, callout, UserRing)
	if err != nil {
		return nil, err
	}
	return s.Read(key)
}

// Assume assumes a handler's authority over its key; 0 lays it down.
func (s *Session) Assume(key int32) error { return s.done(ask{name: "ASSUME", op: 3}.i32(key)) }

// Instantiate gives the key that a handler makes its payload, of 1 to 32,767 bytes, and links it in one more ring.
func (s *Session) Instantiate(key int32, payload []byte, ring int32) error {
	return s.done(ask{name: "INSTANTIATE", op: 4}.i32(key).block(string(payload)).i32(ring))
}

// Negate says of the key that a handler makes that there is none, for so many seconds: requests are answered ENOKEY.
func (s *Session) Negate(key int32, seconds uint32, ring int32) error {
	return s.done(ask{name: "NEGATE", op: 5}.i32(key).u32(seconds).i32(ring))
}

// Reject is Negate with one of the errors 126 to 129.
func (s *Session) Reject(key int32, seconds, code uint32, ring int32) error {
	return s.done(ask{name: "REJECT", op: 6}.i32(key).u32(seconds).u32(code).i32(ring))
}

// Read is the payload of a key.
func (s *Session) Read(key int32) ([]byte, error) {
	return s.ask(ask{name: "READ", op: 7}.i32(key), bytes)
}

// Describe is `type;uid;state;description` of a key. The states are valid, negative, building, expired and revoked.
func (s *Session) Describe(key int32) (string, error) {
	return s.text(ask{name: "DESCRIBE", op: 8}.i32(key))
}

// Revoke marks a key as revoked, for good.
func (s *Session) Revoke(key int32) error { return s.done(ask{name: "REVOKE", op: 9}.i32(key)) }

// Timeout lets a key expire in so many seconds, or never for 0.
func (s *Session) Timeout(key int32, seconds uint32) error {
	return s.done(ask{name: "TIMEOUT", op: 10}.i32(key).u32(seconds))
}

// Link links a key in a ring; another one of its name is unlinked there.
func (s *Session) Link(key, ring int32) error {
	return s.done(ask{name: "LINK", op: 11}.i32(key).i32(ring))
}

// Unlink unlinks a key from a ring. A key without links is gone.
func (s *Session) Unlink(key, ring int32) error {
	return s.done(ask{name: "UNLINK", op: 12}.i32(key).i32(ring))
}

// Clear unlinks all keys of a ring.
func (s *Session) Clear(ring int32) error { return s.done(ask{name: "CLEAR", op: 13}.i32(ring)) }

// Default sets where keys go that are requested into no ring, and is the setting before; Keep only reads it.
func (s *Session) Default(setting int32) (int32, error) {
	before, err := s.number(ask{name: "DEFAULT", op: 14}.i32(setting), func(value uint32) bool { return value <= 4 || value == 7 })
	return int32(before), err
}

// Add makes a key with its payload, of 1 to 32,767 bytes, links it in a ring, and is its serial.
func (s *Session) Add(kind, description string, payload []byte, ring int32) (int32, error) {
	return s.serial(ask{name: "ADD", op: 15}.block(kind).block(description).block(string(payload)).i32(ring))
}

// Callout is the callout of the request for a handler's key.
func (s *Session) Callout() (string, error) { return s.text(ask{name: "CALLOUT", op: 16}) }

// ---- a request into its frame, field by field

type ask struct {
	name    string
	op      byte
	fields  []byte
	unspelt bool
}

func (a ask) u8(value uint8) ask {
	a.fields = append(a.fields, value)
	return a
}

func (a ask) u32(value uint32) ask {
	a.fields = binary.BigEndian.AppendUint32(a.fields, value)
	return a
}

func (a ask) i32(value int32) ask { return a.u32(uint32(value)) }

func (a ask) block(text string) ask {
	a.unspelt = a.unspelt || len(text) > 65535
	a.fields = append(binary.BigEndian.AppendUint16(a.fields, uint16(len(text))), text...)
	return a
}

// ---- replies, and what of each is behind its first byte

type reply byte

const (
	number reply = iota
	bytes
	rings
	refused
)

func (s *Session) done(request ask) error {
	_, err := s.number(request, func(value uint32) bool { return value == 0 })
	return err
}

func (s *Session) serial(request ask) (int32, error) {
	value, err := s.number(request, func(value uint32) bool { return 1 <= value && value <= greatest })
	return int32(value), err
}

func (s *Session) number(request ask, fits func(uint32) bool) (uint32, error) {
	fields, err := s.ask(request, number)
	if err != nil {
		return 0, err
	}
	value := binary.BigEndian.Uint32(fields)
	if !fits(value) {
		return 0, s.ends(request, ErrMalformed)
	}
	return value, nil
}

func (s *Session) text(request ask) (string, error) {
	fields, err := s.ask(request, bytes)
	if err == nil && !utf8.Valid(fields) {
		err = s.ends(request, ErrMalformed)
	}
	return string(fields), err
}

func (s *Session) ask(request ask, kind reply) ([]byte, error) {
	if s.over {
		return nil, s.failed(request, ErrEnded)
	}
	if request.unspelt || len(request.fields)+1 > longest {
		return nil, s.failed(request, ErrUnspelt)
	}
	body, err := s.exchange(append([]byte{request.op}, request.fields...))
	if err != nil {
		return nil, s.ends(request, err)
	}
	first, fields := reply(body[0]), body[1:]
	switch {
	case first == refused && len(fields) == 1 && names[Errno(fields[0])] != "":
		return nil, s.failed(request, Errno(fields[0]))
	case first != kind:
		return nil, s.ends(request, ErrMalformed)
	case kind == bytes && len(fields) >= 2 && int(binary.BigEndian.Uint16(fields)) == len(fields)-2:
		return fields[2:], nil
	case kind == number && len(fields) == 4, kind == rings && len(fields) == 16:
		return fields, nil
	}
	return nil, s.ends(request, ErrMalformed)
}

// exchange writes a body as a frame, and reads that of the reply.
func (s *Session) exchange(body []byte) ([]byte, error) {
	if _, err := s.out.Write(append(binary.BigEndian.AppendUint32(nil, uint32(len(body))), body...)); err != nil {
		return nil, err
	}
	var head [4]byte
	if err := s.take(head[:]); err != nil {
		return nil, err
	}
	length := binary.BigEndian.Uint32(head[:])
	if length == 0 || length > longest {
		return nil, ErrMalformed
	}
	answer := make([]byte, length)
	return answer, s.take(answer)
}

func (s *Session) take(into []byte) error {
	_, err := io.ReadFull(s.in, into)
	if err == io.EOF || err == io.ErrUnexpectedEOF {
		return ErrEnded
	}
	return err
}

// ends ends the session by an error.
func (s *Session) ends(request ask, err error) error {
	s.over = true
	return s.failed(request, err)
}

func (s *Session) failed(request ask, err error) error {
	if s.path == "" {
		return fmt.Errorf("%s: %w", request.name, err)
	}
	return fmt.Errorf("%s: %s: %w", s.path, request.name, err)
}
