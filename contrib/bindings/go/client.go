// Package s10client asks an s10 server for identifiers, and keeps the numbers of its requests in a file, its notes.
//
// A request is written to the notes, with its number, before it is sent. It is sent again until its reply comes, and after
// a stop it is asked again before any other. So no number is used for two requests, and no identifier is lost. The code of
// the C library numbers and writes the requests, and reads the replies.
package s10client

// #cgo pkg-config: s10
// #include <s10.h>
import "C"

import (
	"errors"
	"net"
	"net/netip"
	"os"
	"strings"
	"time"
	"unsafe"
)

// Errors beside those of the system and the refusals of the library.
var (
	// ErrGaveUp says that no reply came within the tries. The request stays open: call Again.
	ErrGaveUp = errors.New("gave-up")
	// ErrLinked says that the notes have another name too, a hard link.
	ErrLinked = errors.New("the notes are linked")
	// ErrNoNotes says that the file holds no notes, or was changed.
	ErrNoNotes = errors.New("no notes")
	// ErrBadAddress says that the server is no IPv4 address with a port.
	ErrBadAddress = errors.New("no IPv4 address")
)

// A Refusal of the C library is an enum s10_code of s10.h.
type Refusal uint32

// Error returns the word of the code.
func (r Refusal) Error() string {
	var word C.struct_s10_word
	C.s10_word(C.uint32_t(r), &word)
	return C.GoString(&word.text[0])
}

// IsOfField returns whether a field of the request is wrong.
func (r Refusal) IsOfField() bool { return r >= C.S10_BAD_KIND && r <= C.S10_BAD_COUNT }

// A Kind is what a request asks.
type Kind uint8

// The kinds of requests.
const (
	Grant    Kind = C.S10_GRANT
	Draw     Kind = C.S10_DRAW
	Void     Kind = C.S10_VOID
	Query    Kind = C.S10_QUERY
	DrawMany Kind = C.S10_DRAW_MANY
	Withdraw Kind = C.S10_WITHDRAW
)

// A Request is what a client asks. Its kind says which fields it has, as in s10.h.
type Request struct {
	Kind                       Kind
	Service, Country           string // two capital letters each
	Count                      uint8  // of a sheet, 1 to 16
	Identifier                 string // of a Void or a Query
	Holder, First, Last, Range uint32
}

// An Outcome is what the server replies. It has the fields of its kind of request.
type Outcome struct {
	Number      uint32 // of the request
	Refusal     string // the word of the refusal, empty if the request is done
	Day, Range  uint32
	Status      uint8 // of a Query: an enum s10_status of s10.h
	Identifiers []string
}

// A Client has one server and one file of notes. It is for one goroutine at a time.
type Client struct {
	Tries int           // how often a request is sent, 5 after Open
	Wait  time.Duration // for its reply, after each, 1 s after Open

	notes *notes
	link  net.Conn
	// The datagram that waits for its reply. The notes have it until its reply is recorded.
	pending []byte
}

// Create creates the notes of a client that has the numbers from first to last. No file may be at the path. If notes are
// lost, create them with numbers that were certainly never used.
func Create(path string, customer, first, last uint32) error {
	if first > last {
		return Refusal(C.S10_NUMBERS_SPENT)
	}
	return createNotes(path, members{customer: customer, next: uint64(first), last: last})
}

// Open opens the notes, and a socket to the server at an IPv4 address and a port. If another client has the notes open, it
// fails with syscall.EWOULDBLOCK. If IsOpen is true then, call Again first: the run before did not record that the reply came.
func Open(path, server string) (*Client, error) {
	address, err := netip.ParseAddrPort(server)
	if err != nil || !address.Addr().Is4() {
		return nil, ErrBadAddress
	}
	notes, err := openNotes(path)
	if err != nil {
		return nil, err
	}
	// Connected, the socket receives from the server's address alone.
	link, err := net.DialUDP("udp4", nil, net.UDPAddrFromAddrPort(address))
	if err != nil {
		notes.close()
		return nil, err
	}
	return &Client{Tries: 5, Wait: time.Second, notes: notes, link: link, pending: notes.request}, nil
}

// Close closes the socket and the notes. The request stays in the notes unless its reply was recorded.
func (c *Client) Close() error {
	c.notes.close()
	return c.link.Close()
}

// IsOpen returns whether a request waits for its reply.
func (c *Client) IsOpen() bool { return c.pending != nil }

// Call asks a request with the next number. If its error is not ErrGaveUp, nothing was sent and no number was taken.
func (c *Client) Call(request Request) (Outcome, error) {
	datagram, err := submit(c.notes.members, c.pending, request)
	if err != nil {
		return Outcome{}, err
	}
	next := c.notes.members
	next.next, next.request = next.next+1, datagram
	if err := c.notes.replace(next); err != nil {
		return Outcome{}, err
	}
	c.pending = datagram
	return c.Again()
}

// Again sends the open request until its reply comes.
func (c *Client) Again() (Outcome, error) {
	if c.pending == nil {
		return Outcome{}, Refusal(C.S10_IDLE)
	}
	for tried := 0; tried < c.Tries; tried++ {
		c.link.Write(c.pending) // one that fails is as one that is lost
		if outcome, ok := c.receive(time.Now().Add(c.Wait)); ok {
			c.pending = nil
			return outcome, nil
		}
	}
	return Outcome{}, ErrGaveUp
}

// Record records in the notes that the last reply came, so that the next run does not ask for it again. Call it once the
// reply was used, such as after its label was printed. The next Call records it too.
func (c *Client) Record() error {
	if c.pending != nil || c.notes.request == nil {
		return nil
	}
	next := c.notes.members
	next.request = nil
	return c.notes.replace(next)
}

// receive waits for the reply to the open request until some time.
func (c *Client) receive(end time.Time) (Outcome, bool) {
	c.link.SetReadDeadline(end)
	buffer := make([]byte, 512)
	for time.Now().Before(end) {
		n, err := c.link.Read(buffer)
		if errors.Is(err, os.ErrDeadlineExceeded) {
			break
		} else if err != nil {
			time.Sleep(min(50*time.Millisecond, time.Until(end))) // no server listens, for example: it may do so later
		} else if outcome, ok := accept(c.pending, buffer[:n]); ok {
			return outcome, true
		}
	}
	return Outcome{}, false
}

func min(a, b time.Duration) time.Duration {
	if a < b {
		return a
	}
	return b
}

// pointer returns the address of bytes for the C library, which allows no null pointer.
func pointer(bytes []byte) *C.uint8_t {
	if len(bytes) == 0 {
		bytes = []byte{0}
	}
	return (*C.uint8_t)(unsafe.Pointer(&bytes[0]))
}

// put copies a text into characters of C, unless it is too long for them.
func put(to []C.char, text string) {
	for at := 0; at < len(text) && len(text) <= len(to); at++ {
		to[at] = C.char(text[at])
	}
}

// submit returns the datagram of a request with the next number.
func submit(noted members, pending []byte, request Request) ([]byte, error) {
	first := noted.last
	if noted.next < uint64(first) {
		first = uint32(noted.next)
	}
	client := C.struct_s10_client{
		taken: C.uint64_t(noted.next - uint64(first)), customer: C.uint32_t(noted.customer),
		first: C.uint32_t(first), last: C.uint32_t(noted.last),
	}
	client.pending.len = C.size_t(len(pending))
	asked := C.struct_s10_request{
		kind: C.uint8_t(request.Kind), count: C.uint8_t(request.Count), holder: C.uint32_t(request.Holder),
		first: C.uint32_t(request.First), last: C.uint32_t(request.Last), _range: C.uint32_t(request.Range),
	}
	put(asked.service[:], request.Service)
	put(asked.country[:], request.Country)
	put(asked.text[:], request.Identifier)
	if result := C.s10_submit(&client, &asked); result.code != C.S10_OK {
		return nil, Refusal(result.code)
	}
	return C.GoBytes(unsafe.Pointer(&client.pending.bytes[0]), C.int(client.pending.len)), nil
}

// keyOf returns the customer and the number of the datagram of a request.
func keyOf(datagram []byte) (customer, number uint32, ok bool) {
	var request C.struct_s10_request
	result := C.s10_decode(pointer(datagram), C.size_t(len(datagram)), &request)
	return uint32(request.customer), uint32(request.number), result.code == C.S10_OK
}

// accept returns the outcome in a datagram, if it is the reply to the request that was sent.
func accept(sent, datagram []byte) (Outcome, bool) {
	var found C.struct_s10_outcome
	result := C.s10_accept(pointer(sent), C.size_t(len(sent)), pointer(datagram), C.size_t(len(datagram)), &found)
	if result.code != C.S10_OK {
		return Outcome{}, false
	}
	_, number, _ := keyOf(sent)
	outcome := Outcome{Number: number, Day: uint32(found.day), Range: uint32(found._range), Status: uint8(found.status)}
	for at := 0; at < int(found.count); at++ {
		outcome.Identifiers = append(outcome.Identifiers, C.GoString(&found.texts[at][0]))
	}
	if found.code != C.S10_DONE {
		outcome.Refusal = refusalOf(datagram)
	}
	return outcome, true
}

// refusalOf returns the word of a refusal, which is the last one in the line of its reply.
func refusalOf(reply []byte) string {
	var line C.struct_s10_line
	C.s10_reply_line(pointer(reply), C.size_t(len(reply)), &line)
	words := strings.Fields(C.GoStringN(&line.text[0], C.int(line.len)))
	return words[len(words)-1]
}
