package s10client;

import java.io.IOException;
import java.nio.file.FileSystemException;
import java.nio.file.Path;

/**
 * Draws identifiers from an s10 server, as s10_draw of contrib/c does.
 *
 * <pre>
 * s10_draw create NOTES CUSTOMER FIRST LAST
 * s10_draw NOTES ADDRESS PORT SERVICE COUNTRY [COUNT [WAIT]]
 * </pre>
 *
 * <p>The first form creates the notes of a client. The second draws COUNT identifiers, by default 1. If the run before was
 * stopped, it first asks its last request again. It waits WAIT milliseconds after each of five sends, by default 1000. It
 * prints a line for each reply. At the end it records that the last one was printed.
 *
 * <p>Status: 0 done, 1 refused by a rule, 2 wrong words, 3 no reply, or the notes, the socket or the output failed.
 */
final class Draw {
    private Draw() {}

    public static void main(String[] words) {
        int status;
        try {
            status = run(words);
        } catch (NumberFormatException why) {
            System.err.println("s10_draw create NOTES CUSTOMER FIRST LAST\ns10_draw NOTES ADDRESS PORT SERVICE COUNTRY [COUNT [WAIT]]");
            status = 2;
        } catch (IllegalArgumentException why) {
            status = fail(why.getMessage(), 2);
        } catch (RefusedException why) {
            status = fail(why.getMessage(), why.isOfField() ? 2 : 3);
        } catch (FileSystemException why) {
            status = fail(why.toString(), 3);
        } catch (IOException why) {
            status = fail(why.getMessage(), 3);
        }
        System.exit(status);
    }

    private static int fail(String why, int status) {
        System.err.println("s10_draw: " + why);
        return status;
    }

    private static int run(String[] words) throws IOException {
        if (words.length == 5 && words[0].equals("create")) {
            Notes.create(Path.of(words[1]), number(words[2]), number(words[3]), number(words[4]));
            return 0;
        }
        if (words.length < 5 || words.length > 7) throw new NumberFormatException();
        int port = number(words[2]);
        int count = words.length > 5 ? number(words[5]) : 1;
        int wait = words.length > 6 ? number(words[6]) : 1000;
        if (port >>> 16 != 0 || wait >>> 16 != 0) throw new NumberFormatException();
        try (Client client = new Client(Path.of(words[0]), words[1], port)) {
            client.wait = wait;
            return draw(client, Request.draw(words[3], words[4]), count);
        }
    }

    /** Asks the open request again, if there is one, and then draws. Returns the status. */
    private static int draw(Client client, Request request, int count) throws IOException {
        boolean isDone = !client.isOpen() || print(client.again());
        for (; isDone && count != 0; count--) isDone = print(client.call(request));
        client.record();
        return isDone ? 0 : 1;
    }

    /** Prints the line of a reply. Returns whether the request is done. */
    private static boolean print(Outcome outcome) throws IOException {
        if (outcome.refusal() != null)
            System.out.println(outcome.number() + " refused " + outcome.refusal());
        else if (outcome.identifiers().length == 0)
            System.out.println(outcome.number() + " done");
        for (String identifier : outcome.identifiers())
            System.out.println(outcome.number() + " day " + outcome.day() + " " + identifier);
        if (System.out.checkError()) throw new IOException("the output cannot be written");
        return outcome.refusal() == null;
    }

    /** Reads a number of 32 bits. */
    private static int number(String word) {
        if (!word.matches("[0-9]{1,10}")) throw new NumberFormatException();
        return Integer.parseUnsignedInt(word);
    }
}
