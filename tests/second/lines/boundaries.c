/*
 * Lines of calls at the boundaries of document 01: each boundary length of text and of associated data, in both
 * modes and both ways, and lengths of text at which the unit goes another way; every single-bit change of a tag, and
 * many of ciphertexts, IVs and associated data; wrong lengths of every string; outputs of exact, longer and shorter
 * room; the block cipher with keys and blocks of many lengths. Inputs come from a seed, which is printed.
 */
#include "calls.h"
#include "../ciphers.h"

static const size_t texts[] = { 0, 1, 15, 16, 17, 31, 32, 33, 47, 48, 49, 63, 64, 65, 4096, 65519, 65520, 65521, 65522,
    65523, 65524, 65525, 65526, 65527, 65528, 65529, 65530, 65531, 65532, 65533, 65534, 65535, 65536, 65537, 1048575,
    1048576, 1048577 };
/* About 1,024 bytes, whose pads CCM keeps; 2,048, from which GHASH has other tables; and 256 blocks, where a counter's last byte comes round. */
static const size_t ways[] = { 1007, 1008, 1009, 1023, 1024, 1025, 1039, 1040, 1041, 2031, 2032, 2033, 2047, 2048, 2049, 2063, 2064, 2065, 4063,
    4064, 4065, 4079, 4080, 4081, 4095, 4097, 4111, 4112, 4113 };
static const size_t datas[] = { 0, 1, 2, 13, 14, 15, 16, 17, 29, 30, 31, 32, 33, 4095, 4096, 4151, 4152, 4153 };

static void call(const char *name, const struct bytes *w, int count, size_t room)
{
    write_call(name, name, w, count, room);
}

static const char *const encrypts[] = { "gcm_encrypt", "ccm_encrypt" };
static const char *const decrypts[] = { "gcm_decrypt", "ccm_decrypt" };

/* A text of n bytes and associated data of a, sealed and opened, with more room than is wanted, just enough, and one byte less. */
static void both_ways(int ccm, size_t n, size_t a)
{
    struct bytes key = some(32), iv = some(12), aad = some(a), text = some(n), sealed = some(n), tag = some(16);
    struct bytes e[] = { key, iv, aad, text };
    call(encrypts[ccm], e, 4, n + 16 + 3);
    call(encrypts[ccm], e, 4, n + 15);
    aead_encrypt(ccm, key, iv, aad, text, sealed.at, tag.at);
    struct bytes d[] = { key, iv, aad, sealed, tag };
    call(decrypts[ccm], d, 5, n + 3);
    if (n > 0)
        call(decrypts[ccm], d, 5, n - 1);
    tag.at[0] ^= 1;
    call(decrypts[ccm], d, 5, n);
    free(key.at), free(iv.at), free(aad.at), free(text.at), free(sealed.at), free(tag.at);
}

/* Each single-bit change of one of the five strings, or every one of every `step`. */
static void changed(int ccm, int which, size_t n, size_t a, size_t step)
{
    struct bytes d[] = { some(32), some(12), some(a), some(n), some(16) }, text = some(n);
    aead_encrypt(ccm, d[0], d[1], d[2], text, d[3].at, d[4].at);
    call(decrypts[ccm], d, 5, n + 2);
    for (size_t bit = 0; bit < 8 * d[which].len; bit += step) {
        d[which].at[bit / 8] ^= (unsigned char)(1u << bit % 8);
        call(decrypts[ccm], d, 5, n + 2);
        d[which].at[bit / 8] ^= (unsigned char)(1u << bit % 8);
    }
    for (int i = 0; i < 5; i++)
        free(d[i].at);
    free(text.at);
}

/* Each string of a call with each of these lengths, the others right; two wrong at once. */
static void lengths(const char *name, const size_t *right, int count, size_t room)
{
    static const size_t wrong[] = { 0, 1, 8, 11, 12, 13, 15, 16, 17, 24, 31, 32, 33, 39, 40, 41, 64 };
    for (int i = 0; i < count; i++)
        for (int j = i; j < count; j++)
            for (size_t k = 0; k < COUNT(wrong); k++) {
                struct bytes w[8];
                for (int m = 0; m < count; m++)
                    w[m] = some(m == i || m == j ? wrong[k] : right[m]);
                call(name, w, count, room);
                for (int m = 0; m < count; m++)
                    free(w[m].at);
            }
}

static void wraps(void)
{
    struct bytes w[] = { some(32), some(32) }, u[] = { w[0], some(40) };
    static const size_t rooms[] = { 0, 8, 31, 32, 33, 39, 40, 41, 64 };
    must(key_wrap(1, w[0].at, w[1].at, u[1].at), "wrap");
    for (size_t i = 0; i < COUNT(rooms); i++) {
        call("wrap", w, 2, rooms[i]);
        call("unwrap", u, 2, rooms[i]);
    }
    for (size_t bit = 0; bit < 320; bit++) {
        u[1].at[bit / 8] ^= (unsigned char)(1u << bit % 8);
        call("unwrap", u, 2, 35);
        u[1].at[bit / 8] ^= (unsigned char)(1u << bit % 8);
    }
}

/* The block cipher with every two of these lengths of key and block. */
static void blocks(const char *name)
{
    static const size_t lens[] = { 0, 1, 8, 15, 16, 17, 24, 31, 32, 33, 64, 255, 4096 };
    for (size_t i = 0; i < COUNT(lens); i++)
        for (size_t j = 0; j < COUNT(lens); j++) {
            struct bytes w[] = { some(lens[i]), some(lens[j]) };
            call(name, w, 2, NO_OUTPUT);
            free(w[0].at), free(w[1].at);
        }
}

int main(int argc, char **argv)
{
    start_from(argc > 1 ? argv[1] : "1");
    for (int ccm = 0; ccm < 2; ccm++) {
        for (size_t i = 0; i < COUNT(texts); i++)
            both_ways(ccm, texts[i], i % 2 ? 20 : 0);
        for (size_t i = 0; i < COUNT(ways); i++)
            both_ways(ccm, ways[i], i % 3 ? 56 : 0);
        for (size_t i = 0; i < COUNT(datas); i++)
            both_ways(ccm, 33, datas[i]);
        changed(ccm, 4, 0, 0, 1);
        changed(ccm, 4, 37, 21, 1);
        changed(ccm, 3, 37, 21, 2);
        changed(ccm, 1, 37, 21, 1);
        changed(ccm, 2, 37, 21, 1);
        changed(ccm, 3, 1024, 56, 61);
        changed(ccm, 3, 1025, 56, 61);
        changed(ccm, 3, 4099, 56, 331);
        static const size_t e[] = { 32, 12, 20, 33 }, d[] = { 32, 12, 20, 33, 16 };
        lengths(encrypts[ccm], e, 4, 60);
        lengths(decrypts[ccm], d, 5, 40);
    }
    blocks("aes256_encrypt");
    blocks("aes256_decrypt");
    blocks("aes256_encrypt_1000");
    blocks("aes256_decrypt_1000");
    wraps();
    static const size_t w[] = { 32, 32 }, u[] = { 32, 40 };
    lengths("wrap", w, 2, 44);
    lengths("unwrap", u, 2, 44);
    return 0;
}
