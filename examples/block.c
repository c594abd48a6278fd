/* Encrypts and decrypts the block of FIPS 197, appendix C.3, and shows a refusal. */
#include <stdio.h>
#include "spadeswirl.h"

static void show(const char *what, const uint8_t *bytes, size_t n)
{
    printf("%-10s", what);
    for (size_t i = 0; i < n; i++)
        printf("%02x", bytes[i]);
    printf("\n");
}

int main(void)
{
    uint8_t key[SPADESWIRL_KEY_BYTES], block[SPADESWIRL_BLOCK_BYTES];
    for (int i = 0; i < SPADESWIRL_KEY_BYTES; i++)
        key[i] = (uint8_t)i;
    for (int i = 0; i < SPADESWIRL_BLOCK_BYTES; i++)
        block[i] = (uint8_t)(17 * i);

    show("key", key, sizeof key);
    show("plaintext", block, sizeof block);
    if (spadeswirl_aes256_encrypt(key, sizeof key, block, sizeof block) != 0)
        return 1;
    show("encrypted", block, sizeof block);
    if (spadeswirl_aes256_decrypt(key, sizeof key, block, sizeof block) != 0)
        return 1;
    show("decrypted", block, sizeof block);

    printf("a key of 31 bytes: %u\n", spadeswirl_aes256_encrypt(key, sizeof key - 1, block, sizeof block));
    show("the block", block, sizeof block);
    return 0;
}
