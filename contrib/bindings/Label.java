import static java.lang.foreign.ValueLayout.*;

import java.lang.foreign.*;
import java.lang.invoke.MethodHandle;

class Label {
    public static void main(String[] words) throws Throwable {
        try (Arena arena = Arena.ofConfined()) {
            Linker linker = Linker.nativeLinker();
            SymbolLookup library = SymbolLookup.libraryLookup("libs10.so.0", arena);
            MethodHandle read = linker.downcallHandle(library.find("s10_read_label").get(),
                FunctionDescriptor.of(MemoryLayout.structLayout(JAVA_INT, JAVA_INT), ADDRESS, JAVA_LONG, ADDRESS));
            MethodHandle nameCode = linker.downcallHandle(library.find("s10_word").get(),
                FunctionDescriptor.ofVoid(JAVA_INT, ADDRESS));
            for (String word : words) {
                MemorySegment text = arena.allocateFrom(word);
                MemorySegment id = arena.allocate(28, 4);
                MemorySegment refusal = arena.allocate(16);
                MemorySegment result = (MemorySegment) read.invoke((SegmentAllocator) arena, text, text.byteSize() - 1, id);
                int code = result.get(JAVA_INT, 0);
                nameCode.invoke(code, refusal);
                if (code == 0)
                    System.out.printf("%s serial %08d%n", id.getString(0), id.get(JAVA_INT, 20));
                else
                    System.out.printf("refused %s %d%n", refusal.getString(0), result.get(JAVA_INT, 4));
            }
        }
    }
}
