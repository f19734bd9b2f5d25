/* Firmware written for version 1 of osnma.h, which thinks of a key's size in bits: it must not link. */
#include <stddef.h>
#include <stdint.h>

uint32_t osnma_kroot_key_size(const uint8_t *msg, size_t len, uint64_t *value);

int main(void)
{
    static const uint8_t message[3] = {0};
    uint64_t bits = 0;
    return (int)osnma_kroot_key_size(message, sizeof message, &bits);
}
