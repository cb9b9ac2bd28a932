package s10client;

import java.io.Closeable;
import java.io.IOException;
import java.nio.channels.FileChannel;
import java.nio.file.FileAlreadyExistsException;
import java.nio.file.Files;
import java.nio.file.LinkOption;
import java.nio.file.Path;
import java.nio.file.StandardCopyOption;
import java.nio.file.StandardOpenOption;
import java.util.Map;

/**
 * A file of notes that is open and locked: one line, as contrib/README.md says ("The format of notes"). The file beside it is
 * locked too: it stays when a rename replaces the notes.
 */
public final class Notes implements Closeable {
    private final Path path;
    private final LockedFile beside;
    private LockedFile file;
    private Members members;

    /**
     * Creates the notes of a client that has the numbers from first to last. No file may be at the path. If notes are lost,
     * create them with numbers that were certainly never used.
     */
    public static void create(Path path, int customer, int first, int last) throws IOException {
        if (Integer.compareUnsigned(first, last) > 0) throw new RefusedException(Library.NUMBERS_SPENT);
        requireFree(path);
        try (LockedFile lock = lockBeside(path)) {
            requireFree(path);
            Members members = new Members(
                Integer.toUnsignedLong(customer), Integer.toUnsignedLong(first), Integer.toUnsignedLong(last), null);
            write(path, members, null).close();
        }
    }

    Notes(Path name) throws IOException {
        // A rename would replace a symbolic link, and not the notes.
        path = name.toRealPath();
        if (!Files.isRegularFile(path)) throw new IOException("no notes");
        beside = lockBeside(path);
        try {
            file = LockedFile.open(path, LockedFile.READ_WRITE, 0);
            checkName();
            // An earlier process may have stopped before it synced the file or its name. What is read stays.
            syncFolder(path);
            file.sync();
            members = Members.parse(file.read());
            if (members == null) throw new IOException("no notes");
        } catch (IOException cause) {
            close();
            throw cause;
        }
    }

    Members members() {
        return members;
    }

    @Override
    public void close() {
        if (file != null) file.close();
        beside.close();
    }

    /** Replaces the notes. If this fails, an opening may find either text. */
    void replace(Members next) throws IOException {
        checkName();
        LockedFile replaced = file;
        file = write(path, next, replaced);
        members = next;
        replaced.close();
    }

    /**
     * Refuses notes that have another name, and others than those that are open. A rename would replace one name, and clients by
     * the others would use their numbers again.
     */
    private void checkName() throws IOException {
        Map<String, Object> held = file.attributes();
        Map<String, Object> found = Files.readAttributes(path, "unix:ino,dev,nlink", LinkOption.NOFOLLOW_LINKS);
        if (!held.get("ino").equals(found.get("ino")) || !held.get("dev").equals(found.get("dev")))
            throw new IOException(path + ": other notes took the place of those that are open");
        if (!found.get("nlink").equals(1)) throw new IOException("the notes are linked");
    }

    private static Path besides(Path path, String end) {
        return path.resolveSibling(path.getFileName() + end);
    }

    private static LockedFile lockBeside(Path path) throws IOException {
        return LockedFile.open(besides(path, ".lock"), LockedFile.WRITE_ONLY | LockedFile.CREATE | LockedFile.APPEND, 0666);
    }

    private static void requireFree(Path path) throws IOException {
        if (Files.exists(path, LinkOption.NOFOLLOW_LINKS)) throw new FileAlreadyExistsException(path + ": File exists");
    }

    /**
     * Writes notes beside their file and renames them onto it, so that they are whole at any moment. They are on disk and locked
     * at the end. They have the mode of those that they replace, and for root the owner.
     */
    private static LockedFile write(Path path, Members next, LockedFile replaced) throws IOException {
        Path beside = besides(path, ".new");
        if (Files.exists(beside, LinkOption.NOFOLLOW_LINKS)) {
            if (!Files.isRegularFile(beside, LinkOption.NOFOLLOW_LINKS)) throw LockedFile.notRegular(beside);
            Files.delete(beside); // of a client that was stopped
        }
        LockedFile file = LockedFile.open(beside, LockedFile.READ_WRITE | LockedFile.CREATE | LockedFile.EXCLUSIVE, 0600);
        try {
            if (replaced != null) file.copyMode(replaced);
            file.write(next.text());
            file.sync();
            Files.move(beside, path, StandardCopyOption.ATOMIC_MOVE);
            syncFolder(path);
        } catch (IOException cause) {
            file.close();
            throw cause;
        }
        return file;
    }

    /** Makes the names in the folder of a path durable. */
    private static void syncFolder(Path path) throws IOException {
        try (FileChannel folder = FileChannel.open(path.toAbsolutePath().getParent(), StandardOpenOption.READ)) {
            folder.force(true);
        }
    }
}
