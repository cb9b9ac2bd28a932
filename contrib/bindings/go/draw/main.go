// Draw draws identifiers from an s10 server, as s10_draw of contrib/c does.
//
//	s10_draw create NOTES CUSTOMER FIRST LAST
//	s10_draw NOTES ADDRESS PORT SERVICE COUNTRY [COUNT [WAIT]]
//
// The first form creates the notes of a client. The second draws COUNT identifiers, by default 1. If the run before was
// stopped, it first asks its last request again. It waits WAIT milliseconds after each of five sends, by default 1000. It
// prints a line for each reply. At the end it records that the last one was printed.
//
// Status: 0 done, 1 refused by a rule, 2 wrong words, 3 no reply, or the notes, the socket or the output failed.
package main

import (
	"errors"
	"fmt"
	"os"
	"strconv"
	"syscall"
	"time"

	"s10client"
)

// errRefused says that a rule of the server refused the request. Its line is printed.
var errRefused = errors.New("refused")

func main() {
	err := run(os.Args[1:])
	var refusal s10client.Refusal
	switch {
	case err == nil:
	case err == errRefused:
		os.Exit(1)
	case errors.Is(err, strconv.ErrSyntax), errors.Is(err, strconv.ErrRange):
		fmt.Fprintln(os.Stderr, "s10_draw create NOTES CUSTOMER FIRST LAST\ns10_draw NOTES ADDRESS PORT SERVICE COUNTRY [COUNT [WAIT]]")
		os.Exit(2)
	case err == s10client.ErrBadAddress, errors.As(err, &refusal) && refusal.IsOfField():
		fmt.Fprintln(os.Stderr, "s10_draw:", err)
		os.Exit(2)
	default:
		fmt.Fprintln(os.Stderr, "s10_draw:", err)
		os.Exit(3)
	}
}

func run(words []string) error {
	if len(words) == 5 && words[0] == "create" {
		numbers, err := parse(words[2:])
		if err != nil {
			return err
		}
		return s10client.Create(words[1], numbers[0], numbers[1], numbers[2])
	}
	if len(words) < 5 || len(words) > 7 {
		return strconv.ErrSyntax
	}
	numbers, err := parse(append([]string{words[2]}, words[5:]...))
	if err != nil {
		return err
	}
	numbers = append(numbers, []uint32{1, 1000}[len(numbers)-1:]...)
	// Otherwise the system gives its number to the file of the lock, which then gets the lines.
	if err := syscall.Fstat(syscall.Stdout, &syscall.Stat_t{}); err != nil {
		return err
	}
	client, err := s10client.Open(words[0], words[1]+":"+words[2])
	if err != nil {
		return err
	}
	defer client.Close()
	client.Wait = time.Duration(numbers[2]) * time.Millisecond
	return draw(client, words[3], words[4], numbers[1])
}

// draw asks the open request again, if there is one, and then draws as often as count says.
func draw(client *s10client.Client, service, country string, count uint32) error {
	request := s10client.Request{Kind: s10client.Draw, Service: service, Country: country}
	var last error
	if client.IsOpen() {
		last = report(client.Again())
	}
	for ; last == nil && count > 0; count-- {
		last = report(client.Call(request))
	}
	if last != nil && last != errRefused {
		return last
	}
	if err := client.Record(); err != nil {
		return err
	}
	return last
}

// report prints the line of a reply.
func report(outcome s10client.Outcome, err error) error {
	if err != nil {
		return err
	}
	if outcome.Refusal != "" {
		if _, err := fmt.Println(outcome.Number, "refused", outcome.Refusal); err != nil {
			return err
		}
		return errRefused
	}
	if len(outcome.Identifiers) == 0 {
		_, err = fmt.Println(outcome.Number, "done")
	}
	for _, identifier := range outcome.Identifiers {
		if err == nil {
			_, err = fmt.Println(outcome.Number, "day", outcome.Day, identifier)
		}
	}
	return err
}

// parse reads numbers of 32 bits.
func parse(words []string) ([]uint32, error) {
	var numbers []uint32
	for _, word := range words {
		number, err := strconv.ParseUint(word, 10, 32)
		if err != nil {
			return nil, err
		}
		numbers = append(numbers, uint32(number))
	}
	return numbers, nil
}
