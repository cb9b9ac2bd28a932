// A client of an s10 server, which keeps the numbers of its requests in a file, its notes.
//
// A request is written to the notes, with its number, before it is sent. It is sent again until its reply comes, and after a
// stop it is asked again before any other. So no number is used for two requests, and no identifier is lost. The code of the
// C library numbers and writes the requests, and reads the replies.

using System;
using System.Collections.Generic;
using System.Diagnostics;
using System.Net;
using System.Net.Sockets;
using System.Threading;

namespace S10 {
    /// <summary>What a request asks.</summary>
    public enum Kind : byte { Grant = 1, Draw, Void, Query, DrawMany, Withdraw }

    /// <summary>A request. Its kind says which fields it has, as in s10.h.</summary>
    public class Request {
        public Kind Kind;
        public string Service = "", Country = "", Identifier = "";
        public byte Count;
        public uint Holder, First, Last, Range;
    }

    /// <summary>What the server replies. It has the fields of its kind of request.</summary>
    public class Outcome {
        public uint Number;

        /// <summary>The word of the refusal, or null if the request is done.</summary>
        public string Refusal;

        public uint Day, Range;
        public byte Status;
        public List<string> Identifiers = new List<string>();
    }

    /// <summary>No reply came within the tries. The request stays open: call Again.</summary>
    public class GaveUpException : Exception {
        public GaveUpException() : base("gave-up") { }
    }

    /// <summary>The server is no IPv4 address.</summary>
    public class AddressException : Exception {
        public AddressException() : base("no IPv4 address") { }
    }

    /// <summary>A client of one server, with one file of notes. It is for one thread at a time.</summary>
    public sealed class Client : IDisposable {
        /// <summary>How often a request is sent, and for how many milliseconds its reply is waited for after each.</summary>
        public int Tries = 5, Wait = 1000;

        readonly Notes notes;
        readonly Socket link;

        // The datagram that waits for its reply. The notes have it until its reply is recorded.
        byte[] pending;

        /// <summary>Opens the notes. If another client has them open, it fails with "Resource temporarily unavailable".
        /// If IsOpen is true then, call Again first: the run before did not record that the reply came.</summary>
        public Client(string path, string address, ushort port) {
            IPAddress host;
            if (!IPAddress.TryParse(address, out host) || host.ToString() != address ||
                host.AddressFamily != AddressFamily.InterNetwork)
                throw new AddressException();
            notes = new Notes(path);
            pending = notes.Members.Request;
            try {
                link = new Socket(AddressFamily.InterNetwork, SocketType.Dgram, ProtocolType.Udp);
                // Connected, the socket receives from the server's address alone.
                link.Connect(host, port);
            } catch {
                notes.Dispose();
                throw;
            }
        }

        /// <summary>Whether a request waits for its reply.</summary>
        public bool IsOpen { get { return pending != null; } }

        /// <summary>Closes the notes and the socket. The request stays in the notes unless its reply was recorded.</summary>
        public void Dispose() {
            link.Close();
            notes.Dispose();
        }

        /// <summary>Asks a request with the next number. If this fails otherwise than by GaveUpException, nothing was sent
        /// and no number was taken.</summary>
        public Outcome Call(Request request) {
            byte[] datagram = Library.Submit(notes.Members, pending, request);
            notes.Replace(notes.Members.With(notes.Members.Next + 1, datagram));
            pending = datagram;
            return Again();
        }

        /// <summary>Sends the open request until its reply comes.</summary>
        public Outcome Again() {
            if (pending == null) throw new LibraryException(Library.Idle);
            for (int tried = 0; tried < Tries; tried++) {
                Outcome outcome = SendAndReceive();
                if (outcome != null) {
                    pending = null;
                    return outcome;
                }
            }
            throw new GaveUpException();
        }

        /// <summary>Records in the notes that the last reply came, so that the next run does not ask for it again. Call it
        /// once the reply was used, such as after its label was printed. The next Call records it too.</summary>
        public void Record() {
            if (pending == null && notes.Members.Request != null)
                notes.Replace(notes.Members.With(notes.Members.Next, null));
        }

        Outcome SendAndReceive() {
            Stopwatch waited = Stopwatch.StartNew();
            byte[] datagram = new byte[512];
            try {
                link.Send(pending);
            } catch (SocketException) { } // one that fails is as one that is lost
            for (int left = Wait; left > 0; left = Wait - (int)waited.ElapsedMilliseconds) {
                try {
                    link.ReceiveTimeout = left;
                    Outcome outcome = Library.Accept(pending, datagram, link.Receive(datagram));
                    if (outcome != null) return outcome;
                } catch (SocketException cause) {
                    // Otherwise no server listens, for example. It may do so later.
                    if (cause.SocketErrorCode != SocketError.TimedOut) Thread.Sleep(Math.Min(left, 50));
                }
            }
            return null;
        }
    }
}
