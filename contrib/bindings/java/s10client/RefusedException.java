package s10client;

/** The C library refused a request: its code is one of s10.h. No number was taken. */
public class RefusedException extends RuntimeException {
    public final int code;

    RefusedException(int code) {
        super(Library.wordOf(code));
        this.code = code;
    }

    /** Returns whether a field of the request is wrong. */
    public boolean isOfField() {
        return code >= 31 && code <= 36;
    }
}
