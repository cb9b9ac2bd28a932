package s10client

import (
	"encoding/hex"
	"encoding/json"
	"errors"
	"fmt"
	"hash/crc32"
	"io"
	"io/fs"
	"os"
	"path/filepath"
	"syscall"
)

// members are what notes say.
type members struct {
	customer uint32
	next     uint64 // one more than last if no number is left
	last     uint32
	request  []byte // the datagram of the open request, or nil
}

// notes are a file with the members, open and locked. The file beside it is locked too: it stays when a rename replaces
// the notes.
type notes struct {
	members
	path       string
	file, lock *os.File
}

// olderText returns the text of notes without a check value, as earlier versions wrote it.
func (m members) olderText() string {
	request := "null"
	if m.request != nil {
		request = `"` + hex.EncodeToString(m.request) + `"`
	}
	return fmt.Sprintf(`{"customer": %d, "next": %d, "last": %d, "request": %s}`+"\n", m.customer, m.next, m.last, request)
}

// text returns the text of notes: a line that ends with the check value of all that is before it.
func (m members) text() string {
	older := m.olderText()
	before := older[:len(older)-len("}\n")]
	return fmt.Sprintf(`%s, "check": "%08x"}`+"\n", before, crc32.ChecksumIEEE([]byte(before)))
}

// parse reads the text of notes. It must be the one that is written for what was read.
func parse(text string) (members, error) {
	var read struct {
		Customer, Last uint32
		Next           uint64
		Request        *string
	}
	if json.Unmarshal([]byte(text), &read) != nil || read.Next > uint64(read.Last)+1 {
		return members{}, ErrNoNotes
	}
	found := members{customer: read.Customer, next: read.Next, last: read.Last}
	if read.Request != nil {
		request, err := hex.DecodeString(*read.Request)
		customer, number, ok := keyOf(request)
		if err != nil || !ok || customer != found.customer || uint64(number)+1 != found.next {
			return members{}, ErrNoNotes
		}
		found.request = request
	}
	if text != found.text() && text != found.olderText() {
		return members{}, ErrNoNotes
	}
	return found, nil
}

// createNotes writes new notes at a path with no file.
func createNotes(path string, first members) error {
	if err := requireFree(path); err != nil {
		return err
	}
	lock, err := lockBeside(path)
	if err != nil {
		return err
	}
	defer lock.Close()
	if err := requireFree(path); err != nil {
		return err
	}
	file, err := writeNotes(path, first, nil)
	if err != nil {
		return err
	}
	return file.Close()
}

// openNotes opens, locks and reads notes.
func openNotes(path string) (*notes, error) {
	// A rename would replace a symbolic link, and not the notes.
	path, err := filepath.EvalSymlinks(path)
	if err != nil {
		return nil, err
	}
	if path, err = filepath.Abs(path); err != nil {
		return nil, err
	}
	if found, err := os.Stat(path); err != nil {
		return nil, err
	} else if !found.Mode().IsRegular() {
		return nil, ErrNoNotes
	}
	n := &notes{path: path}
	if n.lock, err = lockBeside(path); err == nil {
		if n.file, err = openLocked(path, os.O_RDWR, 0); err == nil {
			err = n.read()
		}
	}
	if err != nil {
		n.close()
		return nil, err
	}
	return n, nil
}

// read reads the notes. An earlier process may have stopped before it synced the file or its name: what is read stays.
func (n *notes) read() error {
	if err := n.checkName(); err != nil {
		return err
	}
	if err := syncFolder(n.path); err != nil {
		return err
	}
	if err := n.file.Sync(); err != nil {
		return err
	}
	text := make([]byte, 512)
	size, err := n.file.Read(text)
	if err != nil && err != io.EOF {
		return err
	}
	n.members, err = parse(string(text[:size]))
	return err
}

// checkName refuses notes that have another name, and others than those that are open. A rename would replace one name, and
// clients by the others would use their numbers again.
func (n *notes) checkName() error {
	held, err := n.file.Stat()
	if err != nil {
		return err
	}
	found, err := os.Lstat(n.path)
	if err != nil {
		return err
	}
	if !os.SameFile(held, found) {
		return fmt.Errorf("%s: other notes took the place of those that are open", n.path)
	}
	if found.Sys().(*syscall.Stat_t).Nlink != 1 {
		return ErrLinked
	}
	return nil
}

// replace replaces the notes by others.
func (n *notes) replace(next members) error {
	if err := n.checkName(); err != nil {
		return err
	}
	file, err := writeNotes(n.path, next, n.file)
	if err != nil {
		return err
	}
	n.file.Close()
	n.file, n.members = file, next
	return nil
}

func (n *notes) close() {
	n.file.Close() // of no file this is an error, and nothing else
	n.lock.Close()
}

// writeNotes writes notes beside their file and renames them onto it, so that they are whole at any moment. They are on
// disk and locked at the end. They have the mode of those that they replace, and for root the owner.
func writeNotes(path string, next members, replaced *os.File) (file *os.File, err error) {
	beside := path + ".new"
	if found, err := os.Lstat(beside); err == nil {
		if !found.Mode().IsRegular() {
			return nil, notRegular(beside)
		}
		os.Remove(beside) // of a client that was stopped
	}
	if file, err = openLocked(beside, os.O_RDWR|os.O_CREATE|os.O_EXCL, 0600); err != nil {
		return nil, err
	}
	defer func() {
		if err != nil {
			file.Close()
		}
	}()
	if replaced != nil {
		if err = copyMode(file, replaced); err != nil {
			return nil, err
		}
	}
	if _, err = file.WriteString(next.text()); err != nil {
		return nil, err
	}
	if err = file.Sync(); err != nil {
		return nil, err
	}
	if err = os.Rename(beside, path); err != nil {
		return nil, err
	}
	return file, syncFolder(path)
}

// copyMode gives a file the mode of another and, for root, the owner.
func copyMode(file, other *os.File) error {
	found, err := other.Stat()
	if err != nil {
		return err
	}
	owner := found.Sys().(*syscall.Stat_t)
	if err := file.Chown(int(owner.Uid), int(owner.Gid)); err != nil && !errors.Is(err, syscall.EPERM) {
		return err
	}
	return file.Chmod(found.Mode())
}

// openLocked opens and locks a file. One that is not regular is refused: to open a pipe could wait.
func openLocked(path string, flags int, mode fs.FileMode) (*os.File, error) {
	if found, err := os.Stat(path); err == nil && !found.Mode().IsRegular() {
		return nil, notRegular(path)
	}
	file, err := os.OpenFile(path, flags, mode)
	if err != nil {
		return nil, err
	}
	if err := syscall.Flock(int(file.Fd()), syscall.LOCK_EX|syscall.LOCK_NB); err != nil {
		file.Close()
		return nil, err
	}
	return file, nil
}

func lockBeside(path string) (*os.File, error) {
	return openLocked(path+".lock", os.O_WRONLY|os.O_CREATE|os.O_APPEND, 0666)
}

func requireFree(path string) error {
	if _, err := os.Lstat(path); err == nil {
		return &fs.PathError{Op: "create", Path: path, Err: fs.ErrExist}
	}
	return nil
}

func notRegular(path string) error { return fmt.Errorf("%s is no regular file", path) }

// syncFolder makes the names in the folder of a path durable.
func syncFolder(path string) error {
	folder, err := os.Open(filepath.Dir(path))
	if err != nil {
		return err
	}
	defer folder.Close()
	return folder.Sync()
}
