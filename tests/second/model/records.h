/*
 * Records, read anew from document 01, "Record" and "Numbers given back", and document 02, No. 2. Every length and every
 * sum of lengths is taken in 64 bits. Opening and verifying are one test of a record; verifying is lent no output.
 */
#ifndef RECORDS_H
#define RECORDS_H

#include "../bytes.h"
#include "../ciphers.h"
#include "keytable.h"

#define PLAIN_MAX 1048576
#define CALLER_DATA_MAX 4096
#define HEADER 24
#define IV 12
#define TAG 16

/* A record's front, the 24 + k bytes before its IV: header and name. */
static inline struct bytes front_of(unsigned mode, struct bytes name, uint64_t n)
{
    uint64_t k = name.len;
    struct bytes front = room_for(HEADER + k);
    put(front.at, 2, 1);
    front.at[2] = (unsigned char)mode;
    front.at[3] = 0;
    put(front.at + 4, 4, n);
    put(front.at + 8, 2, HEADER);
    put(front.at + 10, 2, k);
    put(front.at + 12, 2, HEADER + k);
    put(front.at + 14, 2, IV);
    put(front.at + 16, 4, HEADER + k + IV);
    put(front.at + 20, 4, HEADER + k + IV + n);
    memcpy(front.at + HEADER, name.at, k);
    return front;
}

/* The record of a front, whatever the front says: then the IV, the ciphertext and the tag over both parts of the data. */
static inline struct bytes record_of(int ccm, struct bytes key, struct bytes front, struct bytes iv, struct bytes aad,
                                     struct bytes plain)
{
    struct bytes record = room_for(front.len + IV + plain.len + TAG), data = joined(front, aad);
    unsigned char *text = record.at + front.len + IV;
    memcpy(record.at, front.at, front.len);
    memcpy(record.at + front.len, iv.at, IV);
    aead_encrypt(ccm, key, iv, data, plain, text, text + plain.len);
    free(data.at);
    return record;
}

/* Whether the layout is kept, apart from the mode and the maxima. */
static inline int record_fits(struct bytes r)
{
    uint64_t n, k;
    if (r.len < HEADER)
        return 0;
    n = get(r.at + 4, 4), k = get(r.at + 10, 2);
    return get(r.at, 2) == 1 && r.at[3] == 0 && get(r.at + 8, 2) == HEADER && k != 0 && get(r.at + 12, 2) == HEADER + k
        && get(r.at + 14, 2) == IV && get(r.at + 16, 4) == HEADER + k + IV && get(r.at + 20, 4) == HEADER + k + IV + n
        && r.len == HEADER + k + IV + n + TAG;
}

static inline int record_check(struct bytes r)
{
    if (!record_fits(r))
        return 2;
    if (r.at[2] != 1 && r.at[2] != 2)
        return 3;
    if (get(r.at + 10, 2) > NAME_LONGEST || get(r.at + 4, 4) > PLAIN_MAX)
        return 4;
    return 0;
}

/* Table, name, IV, associated data, plaintext. */
static inline int seal(struct bytes *w, struct bytes out)
{
    struct bytes key, front, record;
    unsigned char *row;
    if (table_bad(w[0]))
        return 1;
    if (w[1].len == 0 || w[2].len != IV)
        return 2;
    if (w[1].len > NAME_LONGEST || w[3].len > CALLER_DATA_MAX || w[4].len > PLAIN_MAX)
        return 4;
    if (out.len < HEADER + w[1].len + IV + w[4].len + TAG)
        return 5;
    row = row_for(w[0], DATA_TYPE, w[1].at, w[1].len);
    if (!row)
        return 6;
    key.at = row + 40, key.len = 32;
    front = front_of(row[1], w[1], w[4].len);
    record = record_of(row[1] == 1, key, front, w[2], w[3], w[4]);
    memcpy(out.at, record.at, record.len);
    free(front.at), free(record.at);
    return 0;
}

/* Table, record, associated data: the number of opening with so much room, and where it is 0 the plaintext, to be freed. */
static inline int open_within(struct bytes *w, uint64_t room, struct bytes *plain)
{
    struct bytes r = w[1], key, iv, front, data, text;
    unsigned char *row;
    int number, right;
    if (table_bad(w[0]))
        return 1;
    number = record_check(r);
    if (number == 2 || number == 3)
        return number;
    if (number == 4 || w[2].len > CALLER_DATA_MAX)
        return 4;
    text.len = get(r.at + 4, 4);
    if (room < text.len)
        return 5;
    front.at = r.at, front.len = HEADER + get(r.at + 10, 2);
    row = row_for(w[0], DATA_TYPE, r.at + HEADER, front.len - HEADER);
    if (!row)
        return 6;
    if (row[1] != r.at[2])
        return 7;
    key.at = row + 40, key.len = 32;
    iv.at = r.at + front.len, iv.len = IV;
    text.at = iv.at + IV;
    data = joined(front, w[2]);
    *plain = room_for(text.len + TAG);
    plain->len = text.len;
    right = aead_decrypt(r.at[2] == 1, key, iv, data, text, text.at + text.len, plain->at);
    free(data.at);
    if (!right)
        free(plain->at);
    return right ? 0 : 9;
}

static inline int open_record(struct bytes *w, struct bytes out, unsigned long long *count)
{
    struct bytes plain;
    int number = open_within(w, out.len, &plain);
    if (number == 0) {
        memcpy(out.at, plain.at, plain.len);
        *count = plain.len;
        free(plain.at);
    }
    return number;
}

/* What opening gives where there is room for the plaintext, which nobody gets. */
static inline int verify_record(struct bytes *w)
{
    struct bytes plain;
    int number = open_within(w, UINT64_MAX, &plain);
    if (number == 0)
        free(plain.at);
    return number;
}

#endif
