package s10client;

/** What a client asks. A kind has the fields that s10.h names; the others are empty or 0. */
public record Request(int kind, String service, String country, int count, String identifier, int holder, int first,
                      int last, int range) {
    private static final int GRANT = 1, DRAW = 2, VOID = 3, QUERY = 4, DRAW_MANY = 5, WITHDRAW = 6;

    /** Grants the serials first to last, as the post. */
    public static Request grant(int holder, String service, String country, int first, int last) {
        return new Request(GRANT, service, country, 0, "", holder, first, last, 0);
    }

    /** Draws the next free identifier of a service and country. */
    public static Request draw(String service, String country) {
        return new Request(DRAW, service, country, 0, "", 0, 0, 0, 0);
    }

    /** Draws a sheet of 1 to 16 identifiers, all or none. */
    public static Request drawMany(String service, String country, int count) {
        return new Request(DRAW_MANY, service, country, count, "", 0, 0, 0, 0);
    }

    public static Request voidIdentifier(String identifier) {
        return new Request(VOID, "", "", 0, identifier, 0, 0, 0, 0);
    }

    public static Request query(String identifier) {
        return new Request(QUERY, "", "", 0, identifier, 0, 0, 0, 0);
    }

    /** Closes a range for ever, as the post. */
    public static Request withdraw(int range) {
        return new Request(WITHDRAW, "", "", 0, "", 0, 0, 0, range);
    }
}
