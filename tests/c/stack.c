/* How much stack the functions of osnma.h use: each is called on a stack of its own that was painted before, with good arguments
 * and with refused ones, and the paint that is gone is counted, the return address among it. The manual names the bound. */
#include "osnma.h"

#include <stdio.h>

#define BOUND 128     /* bytes: as osnma.h says */
#define ROOM 4096     /* bytes of the stack that is painted */
#define ROUNDS 2000   /* calls of each function */
#define DEEPEST_ARGS 6 /* all in registers */

typedef void (*function)(void);

/* The arguments of a function, a letter each. h header, m message and length, n node, K key size, T tag size, t tag, o output and
 * length, i table ID, g message number, s start, w width; 1, 2, 3 lent numbers. */
struct exported {
    const char *name;
    const char *arguments;
    function call;
};

#define EXPORTED(name, arguments) {#name, arguments, (function)name}

static const struct exported all[] = {
    EXPORTED(osnma_nma_status, "h1"),
    EXPORTED(osnma_chain_id, "h1"),
    EXPORTED(osnma_chain_and_pubkey_status, "h1"),
    EXPORTED(osnma_dsm_id, "h1"),
    EXPORTED(osnma_dsm_block_id, "h1"),
    EXPORTED(osnma_dsm_type, "h1"),
    EXPORTED(osnma_kroot_number_of_blocks, "m1"),
    EXPORTED(osnma_kroot_public_key_id, "m1"),
    EXPORTED(osnma_kroot_chain_id, "m1"),
    EXPORTED(osnma_kroot_hash_function, "m1"),
    EXPORTED(osnma_kroot_mac_function, "m1"),
    EXPORTED(osnma_kroot_key_size_bytes, "m1"),
    EXPORTED(osnma_kroot_tag_size, "m1"),
    EXPORTED(osnma_kroot_mac_lookup_table, "m1"),
    EXPORTED(osnma_kroot_wn, "m1"),
    EXPORTED(osnma_kroot_towh, "m1"),
    EXPORTED(osnma_kroot_alpha, "m1"),
    EXPORTED(osnma_kroot_kroot, "m12"),
    EXPORTED(osnma_kroot_digital_signature, "m12"),
    EXPORTED(osnma_kroot_ecdsa_function, "m1"),
    EXPORTED(osnma_kroot_padding, "m12"),
    EXPORTED(osnma_pkr_number_of_blocks, "m1"),
    EXPORTED(osnma_pkr_message_id, "m1"),
    EXPORTED(osnma_pkr_intermediate_tree_node, "mn12"),
    EXPORTED(osnma_pkr_new_public_key_type, "m1"),
    EXPORTED(osnma_pkr_new_public_key_id, "m1"),
    EXPORTED(osnma_pkr_key_size, "m1"),
    EXPORTED(osnma_pkr_new_public_key, "m12"),
    EXPORTED(osnma_pkr_padding, "m12"),
    EXPORTED(osnma_pkr_merkle_tree_leaf, "m12"),
    EXPORTED(osnma_mack_num_tags, "KT1"),
    EXPORTED(osnma_mack_tag0, "mKT1"),
    EXPORTED(osnma_mack_macseq, "mKT1"),
    EXPORTED(osnma_mack_cop, "mKT1"),
    EXPORTED(osnma_mack_tag, "mKTt1"),
    EXPORTED(osnma_mack_tag_info, "mKTt1"),
    EXPORTED(osnma_mack_prnd, "mKTt1"),
    EXPORTED(osnma_mack_adkd, "mKTt1"),
    EXPORTED(osnma_mack_tag_cop, "mKTt1"),
    EXPORTED(osnma_mack_key, "mKTo"),
    EXPORTED(osnma_get_maclt_entry, "igt123"),
    EXPORTED(osnma_get_flx_indices, "ig1o"),
    EXPORTED(osnma_maclt_nt, "i1"),
    EXPORTED(osnma_read_bits, "msw1"),
};

static _Alignas(16) uint8_t stack[ROOM];
static uint8_t message[OSNMA_DSM_MAX_BYTES];
static uint8_t out[OSNMA_MAX_KEY_BYTES];
static uint64_t lent[3];

static uint64_t any(void)
{
    static uint64_t state = 88172645463325252u;
    state ^= state << 13;
    state ^= state >> 7;
    state ^= state << 17;
    return state;
}

static uint64_t one_of(const uint64_t *numbers, size_t many)
{
    return any() % 16 == 0 ? any() % 300 : numbers[any() % many];
}

#define ONE_OF(...) one_of((const uint64_t[]){__VA_ARGS__}, sizeof((const uint64_t[]){__VA_ARGS__}) / sizeof(uint64_t))

/* A message: any bytes, of which the halves that say a count, a key size or a type are legal in most. */
static size_t any_message(int is_mack)
{
    for (size_t i = 0; i < sizeof message; i++) message[i] = (uint8_t)any();
    message[0] = (uint8_t)(any() % 11 << 4);
    message[2] = (uint8_t)(any() % 10 << 4 | any() % 10);
    message[129] = (uint8_t)(ONE_OF(1, 3, 4) % 16 << 4);
    if (is_mack) return (size_t)ONE_OF(60) % (sizeof message + 1);
    return (size_t)ONE_OF(0, 1, 91, 104, 117, 130, 143, 156, 169, 182, 195, 208) % (sizeof message + 1);
}

static size_t arguments_of(const char *letters, uint64_t *arguments)
{
    size_t many = 0;
    int is_mack = letters[0] == 'm' && letters[1] == 'K';
    uint64_t key_size_bytes = 0;
    for (; *letters != 0; letters++) {
        switch (*letters) {
        case 'h': arguments[many++] = any() % 260; break;
        case 'm':
            arguments[many + 1] = any_message(is_mack);
            arguments[many] = (uint64_t)(uintptr_t)message;
            many += 2;
            break;
        case 'n': arguments[many++] = any() % 5; break;
        case 'K':
            key_size_bytes = ONE_OF(12, 13, 14, 15, 16, 20, 24, 28, 32);
            arguments[many++] = key_size_bytes;
            break;
        case 'T': arguments[many++] = ONE_OF(20, 24, 28, 32, 40); break;
        case 't': arguments[many++] = any() % 11; break;
        case 'o':
            arguments[many++] = (uint64_t)(uintptr_t)out;
            arguments[many++] = is_mack ? key_size_bytes % (sizeof out + 1) : 4 + any() % 8 / 7;
            break;
        case 'i': arguments[many++] = 27 + any() % 16; break;
        case 'g': arguments[many++] = any() % 3; break;
        case 's': arguments[many++] = any() % 1700; break;
        case 'w': arguments[many++] = any() % 67; break;
        default: arguments[many++] = (uint64_t)(uintptr_t)&lent[*letters - '1']; break;
        }
    }
    return many;
}

/* Calls it on the painted stack. */
static uint32_t on_the_stack(function call, const uint64_t *arguments)
{
    register uint64_t fifth __asm__("r8") = arguments[4];
    register uint64_t sixth __asm__("r9") = arguments[5];
    register void *target __asm__("r12") = (void *)(uintptr_t)call;
    register void *top __asm__("r13") = stack + ROOM;
    uint64_t returned, first = arguments[0], second = arguments[1], third = arguments[2], fourth = arguments[3];
    __asm__ volatile("xchgq %%rsp, %%r13\n\tcallq *%%r12\n\tmovq %%r13, %%rsp"
                     : "=a"(returned), "+D"(first), "+S"(second), "+d"(third), "+c"(fourth), "+r"(fifth), "+r"(sixth), "+r"(top)
                     : "r"(target)
                     : "r10", "r11", "memory", "cc", "xmm0", "xmm1", "xmm2", "xmm3", "xmm4", "xmm5", "xmm6", "xmm7", "xmm8", "xmm9",
                       "xmm10", "xmm11", "xmm12", "xmm13", "xmm14", "xmm15");
    return (uint32_t)returned;
}

/* The bytes of stack that one call uses. */
static size_t used(const struct exported *f, uint8_t paint, uint32_t *refusal)
{
    uint64_t arguments[DEEPEST_ARGS] = {0};
    arguments_of(f->arguments, arguments);
    for (size_t i = 0; i < ROOM; i++) stack[i] = paint;
    *refusal = on_the_stack(f->call, arguments);
    size_t clean = 0;
    while (clean < ROOM && stack[clean] == paint) clean++;
    return ROOM - clean;
}

int main(void)
{
    size_t deepest = 0, functions = sizeof all / sizeof *all;
    const char *which = "";
    unsigned failed = 0;
    for (size_t i = 0; i < functions; i++) {
        unsigned good = 0, refused = 0;
        for (int round = 0; round < ROUNDS; round++) {
            uint32_t refusal = 0;
            size_t bytes = used(&all[i], (uint8_t)(round % 2 == 0 ? 0xa5 : 0x5a), &refusal);
            if (refusal == 0) good++;
            else refused++;
            if (bytes > deepest) {
                deepest = bytes;
                which = all[i].name;
            }
        }
        if (good == 0 || refused == 0) {
            printf("C test: %s was never %s\n", all[i].name, good == 0 ? "answered" : "refused");
            failed++;
        }
    }
    if (deepest > BOUND) failed++;
    printf("C test: stack of %u functions: at most %u bytes (%s), the manual allows %d\n", (unsigned)functions,
           (unsigned)deepest, which, BOUND);
    return failed != 0;
}
