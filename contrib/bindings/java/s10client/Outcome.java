package s10client;

/**
 * What the server replies. It has the fields of its kind of request.
 *
 * @param number that of the request
 * @param refusal the word of the refusal, or null if the request is done
 * @param status of a Query: an enum s10_status of s10.h
 */
public record Outcome(long number, String refusal, long day, long range, int status, String... identifiers) {}
