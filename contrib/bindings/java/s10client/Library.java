package s10client;

import static jdk.incubator.foreign.CLinker.*;

import java.lang.invoke.MethodHandle;
import java.lang.invoke.MethodType;
import java.nio.charset.StandardCharsets;
import jdk.incubator.foreign.*;

/** The calls of the C library that the client uses. The sizes and offsets of structs are those of s10.h. */
final class Library {
    static final int IDLE = 21, NUMBERS_SPENT = 24;

    private static final int REQUEST = 44, CLIENT = 64, OUTCOME = 236, LINE = 520, WORD = 16, TEXT = 13;
    private static final MemoryLayout RESULT = MemoryLayout.structLayout(C_INT, C_INT);

    static {
        System.loadLibrary("s10");
    }

    private static final MethodHandle SUBMIT = find("s10_submit", C_POINTER, C_POINTER);
    private static final MethodHandle DECODE = find("s10_decode", C_POINTER, C_LONG, C_POINTER);
    private static final MethodHandle ACCEPT = find("s10_accept", C_POINTER, C_LONG, C_POINTER, C_LONG, C_POINTER);
    private static final MethodHandle REPLY_LINE = find("s10_reply_line", C_POINTER, C_LONG, C_POINTER);
    private static final MethodHandle NAME_CODE = getInstance().downcallHandle(
        SymbolLookup.loaderLookup().lookup("s10_word").get(),
        MethodType.methodType(void.class, int.class, MemoryAddress.class), FunctionDescriptor.ofVoid(C_INT, C_POINTER));

    private Library() {}

    private static MethodHandle find(String name, MemoryLayout... parameters) {
        MethodType type = MethodType.methodType(MemorySegment.class);
        for (MemoryLayout parameter : parameters)
            type = type.appendParameterTypes(parameter == C_LONG ? long.class : MemoryAddress.class);
        MemoryAddress function = SymbolLookup.loaderLookup().lookup(name).get();
        return getInstance().downcallHandle(function, type, FunctionDescriptor.of(RESULT, parameters));
    }

    /** Calls a function that returns an s10_result. Returns its code. */
    private static int call(ResourceScope scope, MethodHandle function, Object... arguments) {
        Object[] all = new Object[arguments.length + 1];
        all[0] = SegmentAllocator.ofScope(scope);
        System.arraycopy(arguments, 0, all, 1, arguments.length);
        try {
            return MemoryAccess.getIntAtOffset((MemorySegment) function.invokeWithArguments(all), 0);
        } catch (Throwable cause) {
            throw new IllegalStateException(cause);
        }
    }

    /** Copies bytes for the library, which allows no null pointer: there is a byte more. */
    private static MemoryAddress copy(ResourceScope scope, byte[] bytes) {
        MemorySegment segment = MemorySegment.allocateNative(bytes.length + 1, scope);
        segment.asSlice(0, bytes.length).copyFrom(MemorySegment.ofArray(bytes));
        return segment.address();
    }

    /** Writes a text into characters of C. One that is too long for them stays zeros, which the library refuses. */
    private static void put(MemorySegment struct, int offset, int length, String text) {
        byte[] bytes = text.getBytes(StandardCharsets.UTF_8);
        if (bytes.length <= length) struct.asSlice(offset, bytes.length).copyFrom(MemorySegment.ofArray(bytes));
    }

    private static String text(MemorySegment struct, long offset, long length) {
        return new String(struct.asSlice(offset, length).toByteArray(), StandardCharsets.US_ASCII);
    }

    /** Returns the word of a code. */
    static String wordOf(int code) {
        try (ResourceScope scope = ResourceScope.newConfinedScope()) {
            MemorySegment word = MemorySegment.allocateNative(WORD, scope);
            NAME_CODE.invoke(code, word.address());
            return toJavaString(word);
        } catch (Throwable cause) {
            throw new IllegalStateException(cause);
        }
    }

    /** Returns the datagram of a request with the next number. */
    static byte[] submit(Members members, byte[] pending, Request request) {
        try (ResourceScope scope = ResourceScope.newConfinedScope()) {
            MemorySegment client = MemorySegment.allocateNative(CLIENT, 8, scope);
            long first = Math.min(members.next(), members.last());
            MemoryAccess.setLongAtOffset(client, 0, members.next() - first);
            MemoryAccess.setIntAtOffset(client, 8, (int) members.customer());
            MemoryAccess.setIntAtOffset(client, 12, (int) first);
            MemoryAccess.setIntAtOffset(client, 16, (int) members.last());
            MemoryAccess.setLongAtOffset(client, 24, pending == null ? 0 : pending.length);
            MemorySegment asked = MemorySegment.allocateNative(REQUEST, 4, scope);
            MemoryAccess.setIntAtOffset(asked, 8, request.holder());
            MemoryAccess.setIntAtOffset(asked, 12, request.first());
            MemoryAccess.setIntAtOffset(asked, 16, request.last());
            MemoryAccess.setIntAtOffset(asked, 20, request.range());
            MemoryAccess.setByteAtOffset(asked, 24, (byte) request.kind());
            MemoryAccess.setByteAtOffset(asked, 25, (byte) request.count());
            put(asked, 26, 2, request.service());
            put(asked, 28, 2, request.country());
            put(asked, 30, TEXT, request.identifier());
            int code = call(scope, SUBMIT, client.address(), asked.address());
            if (code != 0) throw new RefusedException(code);
            return client.asSlice(32, MemoryAccess.getLongAtOffset(client, 24)).toByteArray();
        }
    }

    /** Returns whether bytes are the datagram of a request with this customer and number. */
    static boolean isRequest(byte[] datagram, long customer, long number) {
        try (ResourceScope scope = ResourceScope.newConfinedScope()) {
            MemorySegment found = MemorySegment.allocateNative(REQUEST, 4, scope);
            return call(scope, DECODE, copy(scope, datagram), (long) datagram.length, found.address()) == 0
                && Integer.toUnsignedLong(MemoryAccess.getIntAtOffset(found, 0)) == customer
                && Integer.toUnsignedLong(MemoryAccess.getIntAtOffset(found, 4)) == number;
        }
    }

    /** Returns the outcome in a datagram if it is the reply to the request that was sent, otherwise null. */
    static Outcome accept(byte[] sent, byte[] datagram) {
        try (ResourceScope scope = ResourceScope.newConfinedScope()) {
            MemorySegment found = MemorySegment.allocateNative(OUTCOME, 4, scope);
            int code = call(scope, ACCEPT, copy(scope, sent), (long) sent.length, copy(scope, datagram),
                (long) datagram.length, found.address());
            if (code != 0) return null;
            String[] identifiers = new String[MemoryAccess.getByteAtOffset(found, 10)];
            for (int at = 0; at < identifiers.length; at++) identifiers[at] = text(found, 11 + 14 * at, TEXT);
            return new Outcome(numberOf(scope, sent),
                MemoryAccess.getByteAtOffset(found, 8) == 0 ? null : refusalOf(scope, datagram),
                Integer.toUnsignedLong(MemoryAccess.getIntAtOffset(found, 0)),
                Integer.toUnsignedLong(MemoryAccess.getIntAtOffset(found, 4)),
                MemoryAccess.getByteAtOffset(found, 9), identifiers);
        }
    }

    private static long numberOf(ResourceScope scope, byte[] request) {
        MemorySegment found = MemorySegment.allocateNative(REQUEST, 4, scope);
        call(scope, DECODE, copy(scope, request), (long) request.length, found.address());
        return Integer.toUnsignedLong(MemoryAccess.getIntAtOffset(found, 4));
    }

    /** Returns the word of a refusal, which is the last one in the line of its reply. */
    private static String refusalOf(ResourceScope scope, byte[] reply) {
        MemorySegment line = MemorySegment.allocateNative(LINE, 8, scope);
        call(scope, REPLY_LINE, copy(scope, reply), (long) reply.length, line.address());
        String text = text(line, 8, MemoryAccess.getLongAtOffset(line, 0)).trim();
        return text.substring(text.lastIndexOf(' ') + 1);
    }
}
