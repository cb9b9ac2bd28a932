package s10client;

import static jdk.incubator.foreign.CLinker.*;

import java.io.Closeable;
import java.io.IOException;
import java.lang.invoke.MethodHandle;
import java.lang.invoke.MethodType;
import java.nio.ByteBuffer;
import java.nio.channels.FileChannel;
import java.nio.charset.StandardCharsets;
import java.nio.file.FileSystemException;
import java.nio.file.Files;
import java.nio.file.Path;
import java.nio.file.StandardOpenOption;
import java.util.Map;
import jdk.incubator.foreign.*;

/**
 * A regular file that is open and locked by flock, which Java lacks: its own locks are others, and do not keep the clients in
 * other languages out. So the system is called for the lock, and Java reaches the open file by its descriptor.
 */
final class LockedFile implements Closeable {
    static final int WRITE_ONLY = 1, READ_WRITE = 2, CREATE = 0100, EXCLUSIVE = 0200, APPEND = 02000;

    private static final int CLOSE_ON_EXEC = 02000000, LOCK_EXCLUSIVE = 2, LOCK_WITHOUT_WAITING = 4;
    private static final MethodHandle OPEN = getInstance().downcallHandle(
        systemLookup().lookup("open").get(),
        MethodType.methodType(int.class, MemoryAddress.class, int.class, int.class),
        FunctionDescriptor.of(C_INT, C_POINTER, C_INT, asVarArg(C_INT)));
    private static final MethodHandle FLOCK = find("flock", int.class, int.class);
    private static final MethodHandle CLOSE = find("close", int.class);

    private int descriptor;

    private LockedFile(int descriptor) {
        this.descriptor = descriptor;
    }

    private static MethodHandle find(String name, Class<?>... parameters) {
        MemoryLayout[] layouts = new MemoryLayout[parameters.length];
        java.util.Arrays.fill(layouts, C_INT);
        return getInstance().downcallHandle(systemLookup().lookup(name).get(),
            MethodType.methodType(int.class, parameters), FunctionDescriptor.of(C_INT, layouts));
    }

    private static int call(MethodHandle function, Object... arguments) {
        try {
            return (int) function.invokeWithArguments(arguments);
        } catch (Throwable cause) {
            throw new IllegalStateException(cause);
        }
    }

    static IOException notRegular(Path path) {
        return new FileSystemException(path + " is no regular file");
    }

    /** Opens and locks a file. */
    static LockedFile open(Path path, int flags, int mode) throws IOException {
        // To open a pipe could wait.
        if (Files.exists(path) && !Files.isRegularFile(path)) throw notRegular(path);
        int descriptor;
        try (ResourceScope scope = ResourceScope.newConfinedScope()) {
            descriptor = call(OPEN, toCString(path.toString(), scope).address(), flags | CLOSE_ON_EXEC, mode);
        }
        if (descriptor < 0) throw new FileSystemException(path + " cannot be opened");
        LockedFile file = new LockedFile(descriptor);
        if (call(FLOCK, descriptor, LOCK_EXCLUSIVE | LOCK_WITHOUT_WAITING) != 0) {
            file.close();
            throw new IOException("the notes are locked");
        }
        return file;
    }

    @Override
    public void close() {
        if (descriptor >= 0) call(CLOSE, descriptor);
        descriptor = -1;
    }

    /** The name by which Java reaches the open file, also if its path leads to another one. */
    private Path held() {
        return Path.of("/proc/self/fd", Integer.toString(descriptor));
    }

    Map<String, Object> attributes() throws IOException {
        return Files.readAttributes(held(), "unix:ino,dev,mode,uid,gid");
    }

    String read() throws IOException {
        return new String(Files.readAllBytes(held()), StandardCharsets.ISO_8859_1);
    }

    void write(String text) throws IOException {
        Files.write(held(), text.getBytes(StandardCharsets.US_ASCII), StandardOpenOption.WRITE);
    }

    void sync() throws IOException {
        try (FileChannel channel = FileChannel.open(held(), StandardOpenOption.WRITE)) {
            channel.force(true);
        }
    }

    /** Gives the file the mode of another and, for root, the owner. */
    void copyMode(LockedFile other) throws IOException {
        Map<String, Object> found = other.attributes();
        try {
            Files.setAttribute(held(), "unix:uid", found.get("uid"));
            Files.setAttribute(held(), "unix:gid", found.get("gid"));
        } catch (FileSystemException cause) {
            if (!"Operation not permitted".equals(cause.getReason())) throw cause;
        }
        Files.setAttribute(held(), "unix:mode", (int) found.get("mode") & 07777);
    }
}
