// The calls of the C library that the client uses. The fields of a struct have the order and sizes of those in s10.h.

using System;
using System.Runtime.InteropServices;
using System.Text;

namespace S10 {
    /// <summary>A refusal by the library, with its code of s10.h.</summary>
    public class LibraryException : Exception {
        public readonly uint Code;

        public LibraryException(uint code) : base(Library.WordOf(code)) { Code = code; }

        /// <summary>Whether a field of the request is wrong.</summary>
        public bool IsOfField { get { return Code >= 31 && Code <= 36; } }
    }

    static class Library {
        public const uint Idle = 21, NumbersSpent = 24;
        const int TextLength = 13;

        struct Result { public uint code, at; }

        [StructLayout(LayoutKind.Sequential)]
        struct CRequest {
            public uint customer, number, holder, first, last, range;
            public byte kind, count;
            [MarshalAs(UnmanagedType.ByValArray, SizeConst = 2)] public byte[] service;
            [MarshalAs(UnmanagedType.ByValArray, SizeConst = 2)] public byte[] country;
            [MarshalAs(UnmanagedType.ByValArray, SizeConst = 14)] public byte[] text;
        }

        [StructLayout(LayoutKind.Sequential)]
        struct CFrame {
            public UIntPtr len;
            [MarshalAs(UnmanagedType.ByValArray, SizeConst = 28)] public byte[] bytes;
        }

        [StructLayout(LayoutKind.Sequential)]
        struct CClient {
            public ulong taken;
            public uint customer, first, last;
            public CFrame pending;
        }

        [StructLayout(LayoutKind.Sequential)]
        struct COutcome {
            public uint day, range;
            public byte code, status, count;
            [MarshalAs(UnmanagedType.ByValArray, SizeConst = 16 * 14)] public byte[] texts;
        }

        [StructLayout(LayoutKind.Sequential)]
        struct CLine {
            public UIntPtr len;
            [MarshalAs(UnmanagedType.ByValArray, SizeConst = 512)] public byte[] text;
        }

        [DllImport("libs10.so.0")] static extern Result s10_submit(ref CClient client, ref CRequest request);
        [DllImport("libs10.so.0")] static extern Result s10_decode(byte[] bytes, UIntPtr len, out CRequest request);
        [DllImport("libs10.so.0")] static extern Result s10_accept(
            byte[] sent, UIntPtr sentLen, byte[] datagram, UIntPtr len, out COutcome outcome);
        [DllImport("libs10.so.0")] static extern Result s10_reply_line(byte[] bytes, UIntPtr len, out CLine line);
        [DllImport("libs10.so.0")] static extern void s10_word(uint code, [Out] byte[] word);

        /// <summary>Returns the word of a code.</summary>
        public static string WordOf(uint code) {
            byte[] word = new byte[16];
            s10_word(code, word);
            return Encoding.ASCII.GetString(word).TrimEnd('\0');
        }

        /// <summary>Returns the datagram of a request with the next number.</summary>
        public static byte[] Submit(Members members, byte[] pending, Request request) {
            uint first = (uint)Math.Min(members.Next, members.Last);
            CClient client = new CClient {
                taken = members.Next - first, customer = members.Customer, first = first, last = members.Last,
                pending = new CFrame { len = (UIntPtr)(pending == null ? 0 : pending.Length), bytes = new byte[28] },
            };
            CRequest asked = new CRequest {
                kind = (byte)request.Kind, count = request.Count, holder = request.Holder, first = request.First,
                last = request.Last, range = request.Range, service = Characters(request.Service, 2),
                country = Characters(request.Country, 2), text = Characters(request.Identifier, 14),
            };
            Result result = s10_submit(ref client, ref asked);
            if (result.code != 0) throw new LibraryException(result.code);
            byte[] datagram = client.pending.bytes;
            Array.Resize(ref datagram, (int)client.pending.len);
            return datagram;
        }

        /// <summary>Whether bytes are the datagram of a request with this customer and number.</summary>
        public static bool IsRequest(byte[] datagram, uint customer, ulong number) {
            CRequest request;
            return datagram.Length > 0 && s10_decode(datagram, (UIntPtr)datagram.Length, out request).code == 0 &&
                request.customer == customer && request.number == number;
        }

        /// <summary>Returns the outcome in a datagram if it is the reply to the request that was sent, otherwise null.</summary>
        public static Outcome Accept(byte[] sent, byte[] datagram, int length) {
            COutcome found;
            if (s10_accept(sent, (UIntPtr)sent.Length, datagram, (UIntPtr)length, out found).code != 0) return null;
            CRequest request;
            s10_decode(sent, (UIntPtr)sent.Length, out request);
            Outcome outcome = new Outcome {
                Number = request.number, Day = found.day, Range = found.range, Status = found.status,
                Refusal = found.code == 0 ? null : RefusalOf(datagram, length),
            };
            for (int at = 0; at < found.count; at++)
                outcome.Identifiers.Add(Encoding.ASCII.GetString(found.texts, 14 * at, TextLength));
            return outcome;
        }

        // The word of a refusal is the last one in the line of its reply.
        static string RefusalOf(byte[] reply, int length) {
            CLine line;
            s10_reply_line(reply, (UIntPtr)length, out line);
            string text = Encoding.ASCII.GetString(line.text, 0, (int)line.len).TrimEnd();
            return text.Substring(text.LastIndexOf(' ') + 1);
        }

        // Characters of C. A text that is too long for them becomes zeros, which the library refuses.
        static byte[] Characters(string text, int length) {
            byte[] characters = new byte[length];
            byte[] bytes = Encoding.UTF8.GetBytes(text);
            if (bytes.Length <= length) bytes.CopyTo(characters, 0);
            return characters;
        }
    }
}
