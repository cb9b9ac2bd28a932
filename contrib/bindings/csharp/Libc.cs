// The calls of the system that .NET lacks, or does in another way: it has no flock, no sync of a folder, and no rename onto a
// file at once. Each throws IOException with the words of the system if it fails.

using System;
using System.IO;
using System.Runtime.InteropServices;
using System.Text;

namespace S10 {
    /// <summary>What statx says of a file. This struct is the same on all processors.</summary>
    [StructLayout(LayoutKind.Explicit, Size = 256)]
    struct Statx {
        [FieldOffset(16)] public uint links;
        [FieldOffset(20)] public uint owner;
        [FieldOffset(24)] public uint group;
        [FieldOffset(28)] public ushort mode;
        [FieldOffset(32)] public ulong inode;
        [FieldOffset(136)] public ulong device;

        public bool IsRegular { get { return (mode & 0xf000) == 0x8000; } }

        public bool IsSameFile(Statx other) { return inode == other.inode && device == other.device; }
    }

    static class Libc {
        public const int WriteOnly = 1, ReadWrite = 2, CreateFile = 0x40, Exclusive = 0x80, Append = 0x400, NoFollow = 0x100;
        public const uint ForOwner = 0x180, ForAll = 0x1b6; // rw------- and rw-rw-rw-
        const int CloseOnExec = 0x80000, LockExclusive = 2, LockWithoutWaiting = 4, AtWorkingFolder = -100, AtDescriptor = 0x1000;
        const int NotPermitted = 1;
        const uint BasicFields = 0x7ff;

        [DllImport("libc", SetLastError = true)] static extern int open(string path, int flags, uint mode);
        [DllImport("libc", SetLastError = true)] static extern int close(int descriptor);
        [DllImport("libc", SetLastError = true)] static extern int flock(int descriptor, int operation);
        [DllImport("libc", SetLastError = true)] static extern int fsync(int descriptor);
        [DllImport("libc", SetLastError = true)] static extern int rename(string from, string to);
        [DllImport("libc", SetLastError = true)] static extern int fchown(int descriptor, uint owner, uint group);
        [DllImport("libc", SetLastError = true)] static extern int fchmod(int descriptor, uint mode);
        [DllImport("libc", SetLastError = true)] static extern IntPtr read(int descriptor, byte[] buffer, UIntPtr count);
        [DllImport("libc", SetLastError = true)] static extern IntPtr write(int descriptor, byte[] buffer, UIntPtr count);
        [DllImport("libc", SetLastError = true)] static extern int statx(int folder, string path, int flags, uint mask, out Statx found);
        [DllImport("libc", SetLastError = true)] static extern IntPtr realpath(string path, IntPtr buffer);
        [DllImport("libc")] static extern IntPtr strerror(int error);
        [DllImport("libc")] static extern void free(IntPtr memory);

        static IOException Failure(string what) {
            return new IOException(what + ": " + Marshal.PtrToStringAnsi(strerror(Marshal.GetLastWin32Error())));
        }

        static void Must(int result, string what) {
            if (result < 0) throw Failure(what);
        }

        public static int Open(string path, int flags, uint mode) {
            int descriptor = open(path, flags | CloseOnExec, mode);
            Must(descriptor, path);
            return descriptor;
        }

        public static void Close(int descriptor) { close(descriptor); }
        public static void Lock(int descriptor) { Must(flock(descriptor, LockExclusive | LockWithoutWaiting), "the notes"); }
        public static void Sync(int descriptor) { Must(fsync(descriptor), "the notes"); }
        public static void Rename(string from, string to) { Must(rename(from, to), to); }

        public static bool TryStat(string path, int flags, out Statx found) {
            return statx(AtWorkingFolder, path, flags, BasicFields, out found) == 0;
        }

        public static Statx StatOf(string path, int flags = 0) {
            Statx found;
            if (!TryStat(path, flags, out found)) throw Failure(path);
            return found;
        }

        public static Statx StatOf(int descriptor) {
            Statx found;
            Must(statx(descriptor, "", AtDescriptor, BasicFields, out found), "the notes");
            return found;
        }

        /// <summary>Gives a file the mode of another and, for root, the owner.</summary>
        public static void SetMode(int descriptor, Statx other) {
            if (fchown(descriptor, other.owner, other.group) != 0 && Marshal.GetLastWin32Error() != NotPermitted)
                throw Failure("the notes");
            Must(fchmod(descriptor, other.mode & 0xfffu), "the notes");
        }

        /// <summary>Reads a short file.</summary>
        public static string Read(int descriptor) {
            byte[] buffer = new byte[512];
            int count = (int)read(descriptor, buffer, (UIntPtr)buffer.Length);
            Must(count, "the notes");
            return Encoding.ASCII.GetString(buffer, 0, count);
        }

        /// <summary>Writes a text whole.</summary>
        public static void Write(int descriptor, string text) {
            while (text != "") {
                byte[] bytes = Encoding.ASCII.GetBytes(text);
                int count = (int)write(descriptor, bytes, (UIntPtr)bytes.Length);
                Must(count, "the notes");
                text = text.Substring(count);
            }
        }

        /// <summary>Makes the names in the folder of a path durable.</summary>
        public static void SyncFolder(string path) {
            string folder = Path.GetDirectoryName(Path.GetFullPath(path));
            int descriptor = Open(folder, 0, 0);
            int result = fsync(descriptor);
            close(descriptor);
            Must(result, folder);
        }

        /// <summary>Returns the path without symbolic links.</summary>
        public static string RealPath(string path) {
            IntPtr found = realpath(path, IntPtr.Zero);
            if (found == IntPtr.Zero) throw Failure(path);
            string text = Marshal.PtrToStringAnsi(found);
            free(found);
            return text;
        }
    }
}
