/* Matching and tidying for C callers, from crates/capi. Every argument is allowed: what cannot be answered is refused. */
#ifndef MAUDRIKE_CAPI_H
#define MAUDRIKE_CAPI_H

#include <stddef.h>
#include <stdint.h>

/* A refusal's number and what is returned with it, or 0 and the value asked for. */
struct maudrike_answer {
    uint32_t refused;
    uint32_t value;
};

/* Reads a text and binds it by the case line's alphabet: how many records the query has. */
struct maudrike_answer maudrike_bind(const uint8_t *text, size_t text_len);

/* Lists a text on the line with these words, four bytes each, the lowest first: how many stretches there are,
   which out then holds, two bytes each, start and end. */
struct maudrike_answer maudrike_list(const uint8_t *text, size_t text_len, const uint8_t *words, size_t words_len,
                                     uint8_t *out, size_t out_len);

/* Whether a text fits (a, b) on the line with these words: 1 or 0. */
struct maudrike_answer maudrike_fit(const uint8_t *text, size_t text_len, const uint8_t *words, size_t words_len,
                                    uint32_t a, uint32_t b);

/* Tidies the query of a text: how many bytes the tidied text has, which out, of at least 4,096 bytes, then holds. */
struct maudrike_answer maudrike_tidy(const uint8_t *text, size_t text_len, uint8_t *out, size_t out_len);

#endif
