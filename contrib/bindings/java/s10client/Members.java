package s10client;

import java.nio.charset.StandardCharsets;
import java.util.HexFormat;
import java.util.regex.Matcher;
import java.util.regex.Pattern;
import java.util.zip.CRC32;

/**
 * What notes say.
 *
 * @param next the next number, one more than the last if no number is left
 * @param request the datagram of the open request, or null
 */
record Members(long customer, long next, long last, byte[] request) {
    private static final Pattern FORM = Pattern.compile(
        "\\{\"customer\": ([0-9]{1,10}), \"next\": ([0-9]{1,10}), \"last\": ([0-9]{1,10}), "
        + "\"request\": (?:null|\"((?:[0-9a-f]{2})+)\")(?:, \"check\": \"[0-9a-f]{8}\")?\\}\n");
    private static final long MAX = 0xffffffffL;

    Members with(long next, byte[] request) {
        return new Members(customer, next, last, request);
    }

    /** The text without its end: the check value is that of these bytes. */
    private String start() {
        String datagram = request == null ? "null" : '"' + HexFormat.of().formatHex(request) + '"';
        return "{\"customer\": " + customer + ", \"next\": " + next + ", \"last\": " + last + ", \"request\": " + datagram;
    }

    /** Returns the text of the notes: a line that ends with the check value of all that is before it. */
    String text() {
        CRC32 check = new CRC32();
        check.update(start().getBytes(StandardCharsets.US_ASCII));
        return start() + String.format(", \"check\": \"%08x\"}\n", check.getValue());
    }

    /** Reads notes, also those of earlier versions, which have no check value. Returns null if they are none. */
    static Members parse(String text) {
        Matcher found = FORM.matcher(text);
        if (!found.matches()) return null;
        byte[] request = found.group(4) == null ? null : HexFormat.of().parseHex(found.group(4));
        Members members = new Members(
            Long.parseLong(found.group(1)), Long.parseLong(found.group(2)), Long.parseLong(found.group(3)), request);
        boolean isRight = members.customer <= MAX && members.last <= MAX && members.next <= members.last + 1
            && (request == null || Library.isRequest(request, members.customer, members.next - 1))
            && (text.equals(members.text()) || text.equals(members.start() + "}\n"));
        return isRight ? members : null;
    }
}
