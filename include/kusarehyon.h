/* Kusarehyon: the tag and the reader of ISO/IEC 29167-13 (Grain-128A), the key book and host frames, for C.
 *
 * RULES OF THE BOUNDARY. A slice is a pointer and a length, and the library touches only the bytes it has. A slice of no bytes
 * may have any pointer. A pointer to a number is not null. What a call may write (state, reply, out, and each number) overlaps
 * nothing else that the call is given. The library keeps no pointer and no state of its own, so calls on different blocks may run
 * at once. There is no other rule: any bytes, any numbers and any lengths get an answer.
 *
 * ANSWERS, by number:
 *    0  done
 *    1  the book is not whole records of 17 bytes, has over 16, or its KeyIDs do not rise
 *    2  the reply buffer is shorter than 265 bytes
 *    3  kind, method or step not for this state
 *    4  method unsupported, or options not as the payload rules ask; at the reader also where the features that a tag says lack
 *       the bit of the method that was begun, or one that the options need
 *    5  KeyID not in the book, or not that of step 0
 *    6  length wrong, or the eight bits not zero
 *    7  the tag has an error; only a reset opens it
 *    8  the state's block has another length, spells no state, or spells one against the rules
 *    9  no work in this state
 *   10  comparison failed
 *   11  bit count beyond the slice, number at or above 2^48, kind out of range, or data to send over 2,048 bits
 *   20  a frame: the slice ends too soon, or the payload is shorter than its count
 *   21  a frame: the count is not shortest, over 2,120, or not 0 for a reset
 *   22  a frame: the unused bits are not zero
 *   23  a frame: the kind is above 6
 *   24  a frame: no room from the place
 *
 * THE REPLY AREA is the first 265 bytes of the reply buffer, or all of it if shorter. Every call writes all of it: the reply's
 * bits, the first of them highest in its byte, then zeros. Bytes beyond stay as found. *bits is the number of the reply's bits.
 * A refused call has a reply of no bits, but for 10 at the tag's step 1, whose reply is the single bit 1.
 *
 * A BLOCK holds a machine's whole state: eight bytes, then numbers of eight bytes each, the highest byte first.
 *
 *   tag, 56 bytes                                           reader, 64 bytes
 *    0  name: 0 CS-Reset, 1 TA.1, 2 IA.1, 3 IA.2,            0  stage: 0 idle, 1 step 0 sent, 2 step 1 sent, 3 open, 4 closed
 *       4 MA.1, 5 MA.2
 *    1  INIT, 0 or 1                                         1  method
 *    2  TA, 0 or 1                                           2  options
 *    3  IA, 0 or 1                                           3  KeyID
 *    4  ERROR, 0 or 1                                        4  width
 *    5  KeyID                                                5  0
 *    6  options                                              6  0
 *    7  width                                                7  0
 *    8  register b, bits 0 to 63                             8  register b, bits 0 to 63
 *   16  register b, bits 64 to 127                          16  register b, bits 64 to 127
 *   24  register s, bits 0 to 63                            24  register s, bits 0 to 63
 *   32  register s, bits 64 to 127                          32  register s, bits 64 to 127
 *   40  the MAC's accumulator                               40  the MAC's accumulator
 *   48  the MAC's shift register                            48  the MAC's shift register
 *                                                           56  the reader's number
 *
 * A block of another length, one with another first byte than these, or one whose 0s and 1s are something else, spells no state.
 * It is answered 8 and kept. Every other block spells one, be it against the rules, as with a width of 7: commands, responses and
 * the reader's calls answer 8 to that, too, and keep it. A new block may hold anything: a reset fills it, and is refused only for
 * the block's length.
 */
#ifndef KUSAREHYON_H
#define KUSAREHYON_H

#include <stdbool.h>
#include <stddef.h>
#include <stdint.h>

#ifdef __cplusplus
extern "C" {
#endif

enum {
    KUSAREHYON_TAG_BYTES = 56,
    KUSAREHYON_READER_BYTES = 64,
    KUSAREHYON_REPLY_BYTES = 265
};

/* ---- the tag */

/* The state after a reset: CS-Reset, everything false and zero. A short reply buffer is no reason to refuse it. */
uint8_t kusarehyon_tag_reset(uint8_t *state, size_t state_len, uint8_t *reply, size_t reply_len, size_t *bits);

/* A command: kind 0 authentication, 1 comm, 2 secure, 3 key update; the first count bits of payload; the tag's features, its key
 * book and its number, below 2^48. */
uint8_t kusarehyon_tag_command(uint8_t *state, size_t state_len, uint8_t kind, const uint8_t *payload, size_t payload_len,
                               size_t count, uint8_t features, const uint8_t *book, size_t book_len, uint64_t number,
                               uint8_t *reply, size_t reply_len, size_t *bits);

/* A response that the host wants: kind 4 comm, 5 secure; the first count bits of data, 2,048 at most. */
uint8_t kusarehyon_tag_response(uint8_t *state, size_t state_len, uint8_t kind, const uint8_t *data, size_t data_len,
                                size_t count, uint8_t *reply, size_t reply_len, size_t *bits);

/* The tag closed, whatever its state: only a reset opens it. Answers 0, or 8. */
uint8_t kusarehyon_tag_close(uint8_t *state, size_t state_len);

/* The error type of Annex B's table: 1, 2 or 3; 0 where there is no error, or the block spells a state against the rules. A block
 * that spells none is answered 8. */
uint8_t kusarehyon_tag_error_type(const uint8_t *state, size_t state_len);

/* ---- the reader */

/* The state after a reset: idle. A short reply buffer is no reason to refuse it. */
uint8_t kusarehyon_reader_reset(uint8_t *state, size_t state_len, uint8_t *reply, size_t reply_len, size_t *bits);

/* Begins an authentication: method 0 tag, 1 interrogator, 2 mutual; options 1 for MAC64 and 2 for secure messages, or their sum;
 * the KeyID; the reader's number, below 2^48; its book. The reply is the step 0 command. */
uint8_t kusarehyon_reader_begin(uint8_t *state, size_t state_len, uint8_t method, uint8_t options, uint8_t keyid,
                                uint64_t number, const uint8_t *book, size_t book_len, uint8_t *reply, size_t reply_len,
                                size_t *bits);

/* The tag's authentication response, the first count bits of payload. The reply is the step 1 command, or nothing where the
 * session is open. Step 0's response begins with the tag's features, bit 0 TA, 1 IA, 2 MAC32, 3 MAC64, 4 secure messages: TA needs
 * bit 0, IA bit 1, MA none, and the options theirs, else the answer is 4 and the reader is closed. */
uint8_t kusarehyon_reader_replied(uint8_t *state, size_t state_len, const uint8_t *payload, size_t payload_len, size_t count,
                                  uint8_t *reply, size_t reply_len, size_t *bits);

/* A message to the tag: kind 1 comm, 2 secure; the first count bits of data, 2,048 at most. The reply is the message. */
uint8_t kusarehyon_reader_send(uint8_t *state, size_t state_len, uint8_t kind, const uint8_t *data, size_t data_len,
                               size_t count, uint8_t *reply, size_t reply_len, size_t *bits);

/* A message of the tag's: kind 1 comm, 2 secure; the first count bits of payload. The reply is its data. */
uint8_t kusarehyon_reader_receive(uint8_t *state, size_t state_len, uint8_t kind, const uint8_t *payload, size_t payload_len,
                                  size_t count, uint8_t *reply, size_t reply_len, size_t *bits);

/* ---- the key book: records of a KeyID and a key of 16 bytes */

/* Whether it is a book that no call refuses with 1. */
bool kusarehyon_book_sound(const uint8_t *book, size_t book_len);

/* The key under a KeyID, as a reply of 128 bits. Refused with 2, 1 or 5, in this order. */
uint8_t kusarehyon_book_find(const uint8_t *book, size_t book_len, uint8_t keyid, uint8_t *reply, size_t reply_len,
                             size_t *bits);

/* ---- host frames */

/* The frame that s begins with: its kind, its count of bits, where its payload starts, and where it ends and the next frame
 * begins. Refused with 20 to 23, and then the four numbers are 0. */
uint8_t kusarehyon_frame_scan(const uint8_t *s, size_t s_len, uint8_t *kind, size_t *count, size_t *start, size_t *end);

/* Writes a frame from at on; *next is the place behind it. Refused with 20 to 24: then out is as it was, and *next is 0. A done
 * write changes only the frame's own bytes. */
uint8_t kusarehyon_frame_write(uint8_t *out, size_t out_len, size_t at, uint8_t kind, size_t count, const uint8_t *payload,
                               size_t payload_len, size_t *next);

#ifdef __cplusplus
}
#endif

#endif
