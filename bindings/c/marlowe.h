/* The engine as a library. docs/formats.md has the requests and their answers, under "A stream of requests". */
#ifndef MARLOWE_H
#define MARLOWE_H

#include <stdbool.h>
#include <stddef.h>
#include <stdint.h>

#ifdef __cplusplus
extern "C" {
#endif

/*
 * Answers one request: the JSON object of a line that `marlowe serve` reads, with or without its line feed.
 *
 * text_numbers   whether a number of a state may also be a text of its digits
 * request        its bytes, in UTF-8; a request of more than 4 MiB is refused
 * answer, room   where the answer is written, and how many bytes fit there
 *
 * Returns the length of the answer: a JSON object and a line feed, without a byte 0 behind them. Where that is more than the room, nothing
 * is written: ask again with as much room. Returns -1 where memory is refused, and nothing is written then either.
 *
 * Each call stands alone: no contract has a name, and a `define` is answered and forgotten. A `play` is refused. The number of a line is 1.
 * Of several threads each may call at any time. Nothing that is lent is kept. The two ranges of bytes may not overlap, and no other thread
 * may write to either, nor read `answer`, before the call returns. Neither pointer is null, also where its length is 0.
 */
ptrdiff_t marlowe_answer(bool text_numbers, const uint8_t *request, size_t request_length, uint8_t *answer, size_t room);

/*
 * A session, in which contracts keep their names from one request to the next. It begins closed: `struct marlowe_session session = {0};`.
 * No one but these functions reads or changes what it has, and it isn't copied. It may go from one thread to another, ordered by a lock or
 * by a thread's start or end; each call has it alone.
 */
struct marlowe_session { void *names; };

/* Opens a session that is closed. No contract has a name yet. Returns false where memory is refused: it is still closed then. */
bool marlowe_session_open(struct marlowe_session *session);

/*
 * Answers one request in a session that is open, as `marlowe_answer` does; `define` and `forget` change its names. They do so also where their
 * answer doesn't fit, and are not to be asked again. So lend them enough: where the `id` is a number or a text, 128 bytes more than the request.
 * Where memory is refused the names stay.
 */
ptrdiff_t marlowe_session_answer(struct marlowe_session *session, bool text_numbers, const uint8_t *request, size_t request_length,
                                 uint8_t *answer, size_t room);

/* Closes a session that is open, and gives its memory back. It may be opened anew. */
void marlowe_session_close(struct marlowe_session *session);

#ifdef __cplusplus
}
#endif

#endif
