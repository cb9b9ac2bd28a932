// The notes of a client: a file of one line, as contrib/README.md says ("The format of notes").

using System;
using System.IO;
using System.Linq;
using System.Runtime.InteropServices;
using System.Text;
using System.Text.RegularExpressions;

namespace S10 {
    /// <summary>The file holds no notes, was changed, or has another name too.</summary>
    public class NotesException : Exception {
        public NotesException(string what) : base(what) { }
    }

    /// <summary>What notes say. The next number is one more than the last if no number is left.</summary>
    class Members {
        static readonly Regex Form = new Regex(
            "\\A\\{\"customer\": ([0-9]{1,10}), \"next\": ([0-9]{1,10}), \"last\": ([0-9]{1,10}), " +
            "\"request\": (?:null|\"((?:[0-9a-f]{2})+)\")(?:, \"check\": \"[0-9a-f]{8}\")?\\}\n\\z");

        public uint Customer, Last;
        public ulong Next;
        public byte[] Request;

        public Members With(ulong next, byte[] request) {
            return new Members { Customer = Customer, Last = Last, Next = next, Request = request };
        }

        // The text without its end: the check value is that of these bytes.
        string Start() {
            string request = Request == null ? "null" : "\"" + string.Concat(Request.Select(it => it.ToString("x2"))) + "\"";
            return string.Format("{{\"customer\": {0}, \"next\": {1}, \"last\": {2}, \"request\": {3}", Customer, Next, Last, request);
        }

        public string Text() {
            string start = Start();
            return start + ", \"check\": \"" + CheckValue(start).ToString("x8") + "\"}\n";
        }

        /// <summary>Reads notes, also those of earlier versions, which have no check value.</summary>
        public static Members Parse(string text) {
            Match found = Form.Match(text);
            Members members = new Members();
            if (!found.Success || !uint.TryParse(found.Groups[1].Value, out members.Customer) ||
                !ulong.TryParse(found.Groups[2].Value, out members.Next) ||
                !uint.TryParse(found.Groups[3].Value, out members.Last) || members.Next > members.Last + 1ul)
                throw new NotesException("no notes");
            string hex = found.Groups[4].Value;
            if (hex != "") {
                members.Request = Enumerable.Range(0, hex.Length / 2).Select(at => Convert.ToByte(hex.Substring(2 * at, 2), 16)).ToArray();
                if (members.Next == 0 || !Library.IsRequest(members.Request, members.Customer, members.Next - 1))
                    throw new NotesException("no notes");
            }
            if (text != members.Text() && text != members.Start() + "}\n") throw new NotesException("no notes");
            return members;
        }

        // CRC-32, as IEEE 802.3 and zlib have it.
        static uint CheckValue(string text) {
            uint remainder = uint.MaxValue;
            foreach (byte value in Encoding.ASCII.GetBytes(text)) {
                remainder ^= value;
                for (int bit = 0; bit < 8; bit++)
                    remainder = (remainder & 1) == 1 ? remainder >> 1 ^ 0xEDB88320 : remainder >> 1;
            }
            return ~remainder;
        }
    }

    /// <summary>A file of notes that is open and locked. The file beside it is locked too: it stays when a rename replaces
    /// the notes.</summary>
    public sealed class Notes : IDisposable {
        readonly string path;
        readonly LockedFile beside;
        LockedFile file;

        internal Members Members { get; private set; }

        /// <summary>Creates the notes of a client that has the numbers from first to last. No file may be at the path. If
        /// notes are lost, create them with numbers that were certainly never used.</summary>
        public static void Create(string path, uint customer, uint first, uint last) {
            if (first > last) throw new LibraryException(Library.NumbersSpent);
            RequireFree(path);
            using (LockBeside(path)) {
                RequireFree(path);
                Write(path, new Members { Customer = customer, Next = first, Last = last }, null).Dispose();
            }
        }

        internal Notes(string name) {
            // A rename would replace a symbolic link, and not the notes.
            path = Libc.RealPath(name);
            if (!Libc.StatOf(path).IsRegular) throw new NotesException("no notes");
            try {
                beside = LockBeside(path);
                file = new LockedFile(path, Libc.ReadWrite);
                CheckName();
                // An earlier process may have stopped before it synced the file or its name. What is read stays.
                Libc.SyncFolder(path);
                file.Sync();
                Members = Members.Parse(file.Read());
            } catch {
                Dispose();
                throw;
            }
        }

        public void Dispose() {
            if (file != null) file.Dispose();
            if (beside != null) beside.Dispose();
        }

        /// <summary>Replaces the notes. If this fails, an opening may find either text.</summary>
        internal void Replace(Members next) {
            CheckName();
            LockedFile replaced = file;
            file = Write(path, next, replaced);
            Members = next;
            replaced.Dispose();
        }

        // Refuses notes that have another name, and others than those that are open. A rename would replace one name, and
        // clients by the others would use their numbers again.
        void CheckName() {
            Statx held = file.Stat(), found = Libc.StatOf(path, Libc.NoFollow);
            if (!held.IsSameFile(found)) throw new IOException(path + ": other notes took the place of those that are open");
            if (found.links != 1) throw new NotesException("the notes are linked");
        }

        static LockedFile LockBeside(string path) {
            return new LockedFile(path + ".lock", Libc.WriteOnly | Libc.CreateFile | Libc.Append, Libc.ForAll);
        }

        static void RequireFree(string path) {
            Statx found;
            if (Libc.TryStat(path, Libc.NoFollow, out found)) throw new IOException(path + ": File exists");
        }

        // Writes notes beside their file and renames them onto it, so that they are whole at any moment. They are on disk and
        // locked at the end. They have the mode of those that they replace, and for root the owner.
        static LockedFile Write(string path, Members next, LockedFile replaced) {
            string beside = path + ".new";
            Statx found;
            if (Libc.TryStat(beside, Libc.NoFollow, out found)) {
                if (!found.IsRegular) throw new IOException(beside + " is no regular file");
                File.Delete(beside); // of a client that was stopped
            }
            LockedFile file = new LockedFile(beside, Libc.ReadWrite | Libc.CreateFile | Libc.Exclusive, Libc.ForOwner);
            try {
                if (replaced != null) file.CopyMode(replaced.Stat());
                file.Write(next.Text());
                file.Sync();
                Libc.Rename(beside, path);
                Libc.SyncFolder(path);
            } catch {
                file.Dispose();
                throw;
            }
            return file;
        }
    }

    /// <summary>A regular file that is open and locked by flock.</summary>
    sealed class LockedFile : IDisposable {
        int descriptor;

        public LockedFile(string path, int flags, uint mode = 0) {
            Statx found;
            // To open a pipe could wait.
            if (Libc.TryStat(path, 0, out found) && !found.IsRegular) throw new IOException(path + " is no regular file");
            descriptor = Libc.Open(path, flags, mode);
            try {
                Libc.Lock(descriptor);
            } catch {
                Dispose();
                throw;
            }
        }

        public Statx Stat() { return Libc.StatOf(descriptor); }
        public void Sync() { Libc.Sync(descriptor); }
        public string Read() { return Libc.Read(descriptor); }
        public void Write(string text) { Libc.Write(descriptor, text); }
        public void CopyMode(Statx other) { Libc.SetMode(descriptor, other); }

        public void Dispose() {
            if (descriptor >= 0) Libc.Close(descriptor);
            descriptor = -1;
        }
    }
}
