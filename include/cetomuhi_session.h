/* A whole session of the reservation machine: input bytes to printed lines. The two functions are
 * in archives of their own, libsession.a and libsession_checked.a; a server that makes calls one at
 * a time has cetomuhi.h.
 *
 * The input is V (two bytes, high byte first), F (one byte), then commands. No byte after the first
 * 32,768 is looked at. A line is `code number tag` in decimal and a newline: one for the start, one
 * for each command, none after a refusal 1 to 3. Lent memory is the session's own and begins as 0.
 *
 * `input` must be valid for reading `input_len` bytes and `out` for writing `out_len` bytes; the
 * two must not overlap, and neither pointer may be null, also where its length is 0. Nothing is
 * kept after the return, and no other memory is touched.
 *
 * The answer is the number of bytes written first in `out`. It is 0 if the lines do not fit, and
 * then nothing is written. Every session has a line, so 0 says nothing else. 425,984 bytes are
 * enough for every session. */
#ifndef CETOMUHI_SESSION_H
#define CETOMUHI_SESSION_H

#include <stddef.h>
#include <stdint.h>

#ifdef __cplusplus
extern "C" {
#endif

size_t cetomuhi_session(const uint8_t *input, size_t input_len, uint8_t *out, size_t out_len);

/* The same lines, with the state's well-formedness tested at every call. */
size_t cetomuhi_session_checked(const uint8_t *input, size_t input_len, uint8_t *out,
                                size_t out_len);

#ifdef __cplusplus
}
#endif

#endif
