// Requests what a script says, by clients/go, and writes a line of what came of each: as driver.c does, which tells the words.
package main

import (
	"bufio"
	"errors"
	"fmt"
	"io"
	"os"
	"reqkey"
	"strconv"
	"strings"
)

func word(text string) string {
	if strings.HasPrefix(text, "@") {
		count, _ := strconv.Atoi(text[1:])
		return strings.Repeat("p", count)
	}
	var made strings.Builder
	for at := 0; at < len(text); at++ {
		if text[at] == '%' {
			value, _ := strconv.ParseUint(text[at+1:at+3], 16, 8)
			made.WriteByte(byte(value))
			at += 2
		} else {
			made.WriteByte(text[at])
		}
	}
	return made.String()
}

func callout(text string) *string {
	if text == "-" {
		return nil
	}
	return reqkey.Callout(word(text))
}

func number(text string) int64 {
	value, _ := strconv.ParseInt(text, 10, 64)
	return value
}

func signed(text string) int32    { return int32(number(text)) }
func unsigned(text string) uint32 { return uint32(number(text)) }

func told(data string) string {
	var made strings.Builder
	made.WriteString("bytes ")
	for at := 0; at < len(data); at++ {
		if data[at] > ' ' && data[at] <= '~' && data[at] != '%' {
			made.WriteByte(data[at])
		} else {
			fmt.Fprintf(&made, "%%%02X", data[at])
		}
	}
	return made.String()
}

func asked(s *reqkey.Session, w []string) (string, error) {
	switch w[0] {
	case "hello":
		it, err := s.Hello(unsigned(w[1]), unsigned(w[2]), uint8(number(w[3])), unsigned(w[4]))
		return fmt.Sprint(it.Thread, it.Process, it.Session, it.User), err
	case "request":
		key, err := s.Request(word(w[1]), word(w[2]), callout(w[3]), signed(w[4]))
		return fmt.Sprint(key), err
	case "get":
		payload, err := s.Get(word(w[1]), word(w[2]), callout(w[3]))
		return told(string(payload)), err
	case "read":
		payload, err := s.Read(signed(w[1]))
		return told(string(payload)), err
	case "describe":
		text, err := s.Describe(signed(w[1]))
		return told(text), err
	case "callout":
		text, err := s.Callout()
		return told(text), err
	case "default":
		before, err := s.Default(signed(w[1]))
		return fmt.Sprint(before), err
	case "add":
		key, err := s.Add(word(w[1]), word(w[2]), []byte(word(w[3])), signed(w[4]))
		return fmt.Sprint(key), err
	}
	return "0", done(s, w)
}

func done(s *reqkey.Session, w []string) error {
	switch w[0] {
	case "assume":
		return s.Assume(signed(w[1]))
	case "instantiate":
		return s.Instantiate(signed(w[1]), []byte(word(w[2])), signed(w[3]))
	case "negate":
		return s.Negate(signed(w[1]), unsigned(w[2]), signed(w[3]))
	case "reject":
		return s.Reject(signed(w[1]), unsigned(w[2]), unsigned(w[3]), signed(w[4]))
	case "revoke":
		return s.Revoke(signed(w[1]))
	case "timeout":
		return s.Timeout(signed(w[1]), unsigned(w[2]))
	case "link":
		return s.Link(signed(w[1]), signed(w[2]))
	case "unlink":
		return s.Unlink(signed(w[1]), signed(w[2]))
	case "clear":
		return s.Clear(signed(w[1]))
	}
	panic(w[0])
}

func failed(err error) string {
	var refused reqkey.Errno
	switch {
	case errors.As(err, &refused):
		return refused.Error()
	case errors.Is(err, reqkey.ErrUnspelt):
		return "unspelt"
	case errors.Is(err, reqkey.ErrEnded):
		return "ended"
	case errors.Is(err, reqkey.ErrMalformed):
		return "malformed"
	}
	return "system"
}

func play(script io.Reader, output io.Writer, session *reqkey.Session) {
	lines := bufio.NewScanner(script)
	lines.Buffer(nil, 1<<20)
	for lines.Scan() {
		w := strings.Split(lines.Text(), " ")
		var said string
		var err error
		if w[0] == "connect" {
			if session != nil {
				session.Close()
			}
			session, err = reqkey.Dial(w[1])
			said = "connected"
		} else {
			said, err = asked(session, w)
		}
		if err != nil {
			said = failed(err)
		}
		fmt.Fprintln(output, said)
	}
}

func main() {
	if os.Args[1] == "client" {
		play(os.Stdin, os.Stdout, nil)
		return
	}
	script, _ := os.Open(os.Args[2])
	output, _ := os.Create(os.Args[3])
	session, err := reqkey.Streams()
	if err != nil {
		panic(err)
	}
	play(script, output, session)
}
