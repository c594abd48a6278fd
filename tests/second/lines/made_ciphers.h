/* Random calls of the block cipher, the modes by themselves, and key wrap. */
#ifndef MADE_CIPHERS_H
#define MADE_CIPHERS_H

#include "../model/modes.h"
#include "draws.h"

/* One of these strings, or now and then two, with another length. */
static inline void resize(struct bytes **of, size_t count)
{
    for (int again = 1; again; again = one_in(4)) {
        struct bytes *b = of[below(count)];
        *b = sized(*b, another_length(b->len));
    }
}

static inline void any_block(void)
{
    struct bytes w[] = { some(32), some(16) }, *of[] = { &w[0], &w[1] };
    if (HAS(FLAWS(2), 2))
        resize(of, COUNT(of));
    write_made(one_in(2) ? "aes256_encrypt" : "aes256_decrypt", w, 2, NO_OUTPUT);
}

static inline void any_encryption(void)
{
    unsigned flaws = FLAWS(2, 4, 5);
    struct lengths l = any_lengths(DATA_MAX, HAS(flaws, 4));
    struct bytes w[] = { some(32), some(12), some(l.data), some(l.text) }, *of[] = { &w[0], &w[1] };
    if (HAS(flaws, 2))
        resize(of, COUNT(of));
    write_made(one_in(2) ? "ccm_encrypt" : "gcm_encrypt", w, 4, any_room(l.text + 16, HAS(flaws, 5)));
}

/* What was encrypted; where the tag is to be wrong, a bit of any string is another. */
static inline void any_decryption(void)
{
    unsigned flaws = FLAWS(2, 4, 5, 9);
    int ccm = one_in(2);
    struct lengths l = any_lengths(DATA_MAX, HAS(flaws, 4));
    struct bytes w[] = { some(32), some(12), some(l.data), some(l.text), some(16) }, *of[] = { &w[0], &w[1], &w[4] };
    struct bytes *wrong = one_in(2) ? &w[4] : &w[below(5)];
    aead_encrypt(ccm, w[0], w[1], w[2], some(l.text), w[3].at, w[4].at);
    if (HAS(flaws, 9))
        *wrong = bit_changed(*wrong);
    if (HAS(flaws, 2))
        resize(of, COUNT(of));
    write_made(ccm ? "ccm_decrypt" : "gcm_decrypt", w, 5, any_room(l.text, HAS(flaws, 5)));
}

static inline void any_wrap(void)
{
    unsigned flaws = FLAWS(2, 5);
    struct bytes w[] = { some(32), some(32) }, *of[] = { &w[0], &w[1] };
    if (HAS(flaws, 2))
        resize(of, COUNT(of));
    write_made("wrap", w, 2, any_room(40, HAS(flaws, 5)));
}

static inline void any_unwrap(void)
{
    unsigned flaws = FLAWS(2, 5, 8, 9);
    struct row row = kek_row(nothing, some(32), 1);
    struct bytes w[] = { row.key, wrapped_by(&row) }, *of[] = { &w[0] };
    if (HAS(flaws, 9))
        w[1] = bit_changed(w[1]);
    if (HAS(flaws, 8))
        w[1] = sized(w[1], another_length(40));
    if (HAS(flaws, 2))
        resize(of, COUNT(of));
    write_made("unwrap", w, 2, any_room(32, HAS(flaws, 5)));
}

#endif
