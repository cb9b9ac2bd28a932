// Draws identifiers from an s10 server, as s10_draw of contrib/c does.
//
//     s10_draw create NOTES CUSTOMER FIRST LAST
//     s10_draw NOTES ADDRESS PORT SERVICE COUNTRY [COUNT [WAIT]]
//
// The first form creates the notes of a client. The second draws COUNT identifiers, by default 1. If the run before was
// stopped, it first asks its last request again. It waits WAIT milliseconds after each of five sends, by default 1000. It
// prints a line for each reply. At the end it records that the last one was printed.
//
// Status: 0 done, 1 refused by a rule, 2 wrong words, 3 no reply, or the notes, the socket or the output failed.

using System;
using System.Net.Sockets;
using System.IO;
using System.Text;

namespace S10 {
    static class Draw {
        static Stream output;

        static int Main(string[] words) {
            try {
                return Run(words);
            } catch (FormatException) {
                return Usage();
            } catch (OverflowException) {
                return Usage();
            } catch (AddressException why) {
                return Fail(why, 2);
            } catch (LibraryException why) {
                return Fail(why, why.IsOfField ? 2 : 3);
            } catch (Exception why) when (why is GaveUpException || why is NotesException || why is IOException || why is SocketException) {
                return Fail(why, 3);
            }
        }

        static int Usage() {
            Console.Error.WriteLine("s10_draw create NOTES CUSTOMER FIRST LAST\ns10_draw NOTES ADDRESS PORT SERVICE COUNTRY [COUNT [WAIT]]");
            return 2;
        }

        static int Fail(Exception why, int status) {
            Console.Error.WriteLine("s10_draw: " + why.Message);
            return status;
        }

        static int Run(string[] words) {
            if (words.Length == 5 && words[0] == "create") {
                Notes.Create(words[1], uint.Parse(words[2]), uint.Parse(words[3]), uint.Parse(words[4]));
                return 0;
            }
            if (words.Length < 5 || words.Length > 7) return Usage();
            uint count = words.Length > 5 ? uint.Parse(words[5]) : 1;
            int wait = words.Length > 6 ? ushort.Parse(words[6]) : 1000;
            output = Console.OpenStandardOutput();
            using (Client client = new Client(words[0], words[1], ushort.Parse(words[2]))) {
                client.Wait = wait;
                return DrawAll(client, new Request { Kind = Kind.Draw, Service = words[3], Country = words[4] }, count);
            }
        }

        // Asks the open request again, if there is one, and then draws. Returns the status.
        static int DrawAll(Client client, Request request, uint count) {
            bool isDone = true;
            if (client.IsOpen) isDone = Print(client.Again());
            for (; isDone && count > 0; count--) isDone = Print(client.Call(request));
            client.Record();
            return isDone ? 0 : 1;
        }

        // Prints the line of a reply. Returns whether the request is done.
        static bool Print(Outcome outcome) {
            if (outcome.Refusal != null)
                PrintLine("{0} refused {1}", outcome.Number, outcome.Refusal);
            else if (outcome.Identifiers.Count == 0)
                PrintLine("{0} done", outcome.Number);
            foreach (string identifier in outcome.Identifiers)
                PrintLine("{0} day {1} {2}", outcome.Number, outcome.Day, identifier);
            return outcome.Refusal == null;
        }

        static void PrintLine(string format, params object[] values) {
            byte[] line = Encoding.ASCII.GetBytes(string.Format(format, values) + "\n");
            output.Write(line, 0, line.Length);
            output.Flush();
        }
    }
}
