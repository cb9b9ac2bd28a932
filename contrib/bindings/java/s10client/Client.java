package s10client;

import java.io.Closeable;
import java.io.IOException;
import java.net.DatagramPacket;
import java.net.DatagramSocket;
import java.net.InetAddress;
import java.net.InetSocketAddress;
import java.net.PortUnreachableException;
import java.net.SocketTimeoutException;
import java.nio.file.Path;
import java.util.Arrays;

/**
 * A client of an s10 server, which keeps the numbers of its requests in a file, its notes.
 *
 * <p>A request is written to the notes, with its number, before it is sent. It is sent again until its reply comes, and
 * after a stop it is asked again before any other. So no number is used for two requests, and no identifier is lost. The code
 * of the C library numbers and writes the requests, and reads the replies. A client is for one thread at a time.
 */
public final class Client implements Closeable {
    /** No reply came within the tries. The request stays open: call again. */
    public static class GaveUpException extends IOException {
        GaveUpException() {
            super("gave-up");
        }
    }

    /** How often a request is sent, and for how many milliseconds its reply is waited for after each. */
    public int tries = 5, wait = 1000;

    private final Notes notes;
    private final DatagramSocket link;
    /** The datagram that waits for its reply. The notes have it until its reply is recorded. */
    private byte[] pending;

    /**
     * Opens the notes. If another client has them open, it fails with "the notes are locked". If isOpen is true then, call
     * again first: the run before did not record that the reply came.
     */
    public Client(Path path, String address, int port) throws IOException {
        if (!address.matches("[0-9]{1,3}(\\.[0-9]{1,3}){3}") || !InetAddress.getByName(address).getHostAddress().equals(address))
            throw new IllegalArgumentException("no IPv4 address");
        notes = new Notes(path);
        pending = notes.members().request();
        try {
            link = new DatagramSocket();
            // Connected, the socket receives from the server's address alone.
            link.connect(new InetSocketAddress(InetAddress.getByName(address), port));
        } catch (IOException cause) {
            notes.close();
            throw cause;
        }
    }

    /** Returns whether a request waits for its reply. */
    public boolean isOpen() {
        return pending != null;
    }

    /** Closes the notes and the socket. The request stays in the notes unless its reply was recorded. */
    @Override
    public void close() {
        link.close();
        notes.close();
    }

    /**
     * Asks a request with the next number. If this fails otherwise than by GaveUpException, nothing was sent and no number was
     * taken.
     */
    public Outcome call(Request request) throws IOException {
        byte[] datagram = Library.submit(notes.members(), pending, request);
        notes.replace(notes.members().with(notes.members().next() + 1, datagram));
        pending = datagram;
        return again();
    }

    /** Sends the open request until its reply comes. */
    public Outcome again() throws IOException {
        if (pending == null) throw new RefusedException(Library.IDLE);
        for (int tried = 0; tried < tries; tried++) {
            Outcome outcome = sendAndReceive();
            if (outcome != null) {
                pending = null;
                return outcome;
            }
        }
        throw new GaveUpException();
    }

    /**
     * Records in the notes that the last reply came, so that the next run does not ask for it again. Call it once the reply was
     * used, such as after its label was printed. The next call records it too.
     */
    public void record() throws IOException {
        if (pending == null && notes.members().request() != null)
            notes.replace(notes.members().with(notes.members().next(), null));
    }

    private Outcome sendAndReceive() throws IOException {
        long end = System.nanoTime() + wait * 1_000_000L;
        DatagramPacket packet = new DatagramPacket(new byte[512], 512);
        try {
            link.send(new DatagramPacket(pending, pending.length));
        } catch (IOException lost) {
            // One that fails is as one that is lost.
        }
        for (int left = wait; left > 0; left = (int) ((end - System.nanoTime()) / 1_000_000)) {
            try {
                link.setSoTimeout(left);
                packet.setLength(512);
                link.receive(packet);
                Outcome outcome = Library.accept(pending, Arrays.copyOf(packet.getData(), packet.getLength()));
                if (outcome != null) return outcome;
            } catch (SocketTimeoutException over) {
                return null;
            } catch (PortUnreachableException nobody) {
                sleep(Math.min(left, 50)); // no server listens. It may do so later
            }
        }
        return null;
    }

    private static void sleep(int milliseconds) {
        try {
            Thread.sleep(milliseconds);
        } catch (InterruptedException wake) {
            Thread.currentThread().interrupt();
        }
    }
}
