import static jdk.incubator.foreign.CLinker.*;

import java.lang.invoke.MethodHandle;
import java.lang.invoke.MethodType;
import jdk.incubator.foreign.*;

class Label17 {
    static MethodHandle find(String name, MethodType type, FunctionDescriptor layout) {
        return CLinker.getInstance().downcallHandle(SymbolLookup.loaderLookup().lookup(name).get(), type, layout);
    }

    public static void main(String[] words) throws Throwable {
        System.loadLibrary("s10");
        MethodHandle read = find("s10_read_label",
            MethodType.methodType(MemorySegment.class, MemoryAddress.class, long.class, MemoryAddress.class),
            FunctionDescriptor.of(MemoryLayout.structLayout(C_INT, C_INT), C_POINTER, C_LONG, C_POINTER));
        MethodHandle nameCode = find("s10_word",
            MethodType.methodType(void.class, int.class, MemoryAddress.class),
            FunctionDescriptor.ofVoid(C_INT, C_POINTER));
        for (String word : words) {
            try (ResourceScope scope = ResourceScope.newConfinedScope()) {
                MemorySegment text = toCString(word, scope);
                MemorySegment id = MemorySegment.allocateNative(28, 4, scope);
                MemorySegment refusal = MemorySegment.allocateNative(16, scope);
                MemorySegment result = (MemorySegment) read.invoke(
                    SegmentAllocator.ofScope(scope), text.address(), text.byteSize() - 1, id.address());
                int code = MemoryAccess.getIntAtOffset(result, 0);
                nameCode.invoke(code, refusal.address());
                if (code == 0)
                    System.out.printf("%s serial %08d%n", toJavaString(id), MemoryAccess.getIntAtOffset(id, 20));
                else
                    System.out.printf("refused %s %d%n", toJavaString(refusal), MemoryAccess.getIntAtOffset(result, 4));
            }
        }
    }
}
