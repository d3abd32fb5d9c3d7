/* Polungaw: runs a schedule of transactions and tells what each line came to.
 *
 * Link crates/polungaw/out/libpolungaw.a (made by `rt lib` in crates/polungaw). The library needs memcpy and memset and nothing else: no heap,
 * no files, no static data that it changes. A call keeps nothing, so calls from several threads are fine if their buffers differ.
 *
 * Owed by the caller: pointers that aren't null, also where a length is 0; each points to as many bytes as its length says; the text and
 * the output don't overlap; the stack has room for the table (polungaw_table_bytes) and a few frames.
 */
#ifndef POLUNGAW_H
#define POLUNGAW_H

#include <stddef.h>
#include <stdint.h>

#ifdef __cplusplus
extern "C" {
#endif

/* The answer of polungaw_run where the output doesn't fit. */
#define POLUNGAW_NO_ROOM (-1)

/* Runs the schedule text and fills `out` with what is printed, one line for each line of the text, and then zeros to the end.
 * Answers the length of what is printed. Where that is more than `out_length`, the answer is POLUNGAW_NO_ROOM and `out` holds only
 * zeros. Nothing is ever written past `out_length` bytes. There is no other answer: what is wrong with a text is printed. */
int64_t polungaw_run(const uint8_t *text, size_t text_length, uint8_t *out, size_t out_length);

/* A length of `out` that is enough for every text of that length. */
size_t polungaw_room(size_t text_length);

/* How many bytes of stack the table takes, whichever policy the text names. */
size_t polungaw_table_bytes(void);

#ifdef __cplusplus
}
#endif

#endif
