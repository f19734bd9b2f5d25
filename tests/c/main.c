/* Calls every function of osnma.h, with good arguments and with refused ones. Each call is one
 * check: of the number that it returns, of its results, and that it writes nothing else. P4 to P12
 * are the marked edges of document 01. */
#include "osnma.h"

#include <stdio.h>

#define UNWRITTEN UINT64_C(0xa5a5a5a5a5a5a5a5)
#define UNWRITTEN_BYTE 0xa5

static uint64_t a, b, c;                     /* lent for numbers */
static uint8_t out[OSNMA_MAX_KEY_BYTES + 8]; /* lent for bytes, with some behind */
static uint8_t message[OSNMA_DSM_MAX_BYTES];
static uint8_t message_before[OSNMA_DSM_MAX_BYTES];
static unsigned checks, failed;

/* The bytes that hexadecimal text stands for, and 0 in the rest of the room. */
static void from_hex(const char *text, uint8_t *bytes, size_t room)
{
    for (size_t i = 0; i < 2 * room; i++) {
        int digit = 0;
        if (*text != 0) {
            digit = *text <= '9' ? *text - '0' : *text - 'A' + 10;
            text++;
        }
        bytes[i / 2] = (uint8_t)(i % 2 == 0 ? digit << 4 : bytes[i / 2] | digit);
    }
}

static const uint8_t *bytes_of(const char *text)
{
    from_hex(text, message, sizeof message);
    from_hex(text, message_before, sizeof message_before);
    return message;
}

/* A message and its length, as arguments. LEN: cut to so many bytes, or zeros added. */
#define ALL(text) bytes_of(text), (sizeof(text) - 1) / 2
#define LEN(text, many) bytes_of(text), many

static void lend(void)
{
    a = b = c = UNWRITTEN;
    for (size_t i = 0; i < sizeof out; i++) out[i] = UNWRITTEN_BYTE;
}

static int same_bytes(const uint8_t *left, const uint8_t *right, size_t many)
{
    for (size_t i = 0; i < many; i++) {
        if (left[i] != right[i]) return 0;
    }
    return 1;
}

static int same_numbers(uint64_t first, uint64_t second, uint64_t third)
{
    return a == first && b == second && c == third;
}

static void show(const char *word, uint64_t first, uint64_t second, uint64_t third)
{
    uint64_t numbers[3] = {first, second, third};
    printf("%s", word);
    for (int i = 0; i < 3; i++) {
        if (numbers[i] == UNWRITTEN) printf(" -");
        else printf(" %llu", (unsigned long long)numbers[i]);
    }
}

/* What the call did, against what it should have done: bytes is the hexadecimal text of what is to
 * stand in out, before bytes that are not written. */
static void judge(int line, const char *call, uint32_t returned, uint32_t refusal, uint64_t first,
                  uint64_t second, uint64_t third, const char *bytes)
{
    uint8_t wanted[sizeof out];
    size_t many = 0;
    while (bytes[2 * many] != 0) many++;
    from_hex(bytes, wanted, sizeof wanted);
    for (size_t i = many; i < sizeof wanted; i++) wanted[i] = UNWRITTEN_BYTE;

    int numbers_good = same_numbers(first, second, third);
    int out_good = same_bytes(out, wanted, sizeof out);
    int message_good = same_bytes(message, message_before, sizeof message);
    checks++;
    if (returned == refusal && numbers_good && out_good && message_good) return;
    failed++;
    printf("main.c:%d: %s: returned %u, wanted %u", line, call, (unsigned)returned,
           (unsigned)refusal);
    if (!numbers_good) {
        show("; numbers", a, b, c);
        show(", wanted", first, second, third);
    }
    if (!out_good) printf("; wrong bytes");
    if (!message_good) printf("; the message was written to");
    printf("\n");
}

#define JUDGE(text, call, refusal, first, second, third, bytes) \
    (lend(), judge(__LINE__, text, call, refusal, first, second, third, bytes))
#define REFUSED(refusal, call) JUDGE(#call, call, refusal, UNWRITTEN, UNWRITTEN, UNWRITTEN, "")
#define GIVES(value, call) JUDGE(#call, call, 0, value, UNWRITTEN, UNWRITTEN, "")
#define PART(first, many, call) JUDGE(#call, call, 0, first, many, UNWRITTEN, "")
#define SLOT(flex, adkd, object, call) JUDGE(#call, call, 0, flex, adkd, object, "")
#define LISTED(value, refusal, call)                                                    \
    JUDGE(#call, call, (value) ? 0 : refusal, (value) ? (value) : UNWRITTEN, UNWRITTEN, \
          UNWRITTEN, "")
#define COPIES(bytes, call) JUDGE(#call, call, 0, UNWRITTEN, UNWRITTEN, UNWRITTEN, bytes)
#define FLX(count, bytes, call) JUDGE(#call, call, 0, count, UNWRITTEN, UNWRITTEN, bytes)

/* A number whose low 32 bits are another. */
#define WIDE(number) (UINT64_C(0x100000000) + (number))

/* The version, and the numbers of the enums. */
#define IS(name, number) _Static_assert((name) == (number), #name)
IS(OSNMA_VERSION, 2);
IS(OSNMA_OK, 0);
IS(OSNMA_REFUSED_LENGTH, 1);
IS(OSNMA_REFUSED_SATELLITE, 2);
IS(OSNMA_REFUSED_WEEK, 3);
IS(OSNMA_REFUSED_TIME, 4);
IS(OSNMA_REFUSED_PAST_END, 5);
IS(OSNMA_REFUSED_RESERVED, 6);
IS(OSNMA_REFUSED_RANGE, 7);
IS(OSNMA_REFUSED_TABLE_ID, 8);
IS(OSNMA_REFUSED_TAG_NUMBER, 9);
IS(OSNMA_REFUSED_FULL, 10);
IS(OSNMA_REFUSED_CONTRADICT, 11);
IS(OSNMA_REFUSED_RECORD, 12);

/* NMA header: status 2, chain 1, chain and key status 3, the reserved bit set. */
static void nma_header(void)
{
    GIVES(OSNMA_NMAS_OPERATIONAL, osnma_nma_status(0x97, &a));
    GIVES(3, osnma_nma_status(255, &a));
    REFUSED(7, osnma_nma_status(256, &a));
    GIVES(1, osnma_chain_id(0x97, &a));
    REFUSED(7, osnma_chain_id(WIDE(0x97), &a));
    GIVES(OSNMA_CPKS_CHAIN_REVOKED, osnma_chain_and_pubkey_status(0x97, &a));
    GIVES(OSNMA_CPKS_ALERT_MESSAGE, osnma_chain_and_pubkey_status(255, &a));
    REFUSED(7, osnma_chain_and_pubkey_status(UINT64_MAX, &a));
}

static void dsm_header(void)
{
    GIVES(11, osnma_dsm_id(0xb5, &a));
    REFUSED(7, osnma_dsm_id(256, &a));
    GIVES(5, osnma_dsm_block_id(0xb5, &a));
    REFUSED(7, osnma_dsm_block_id(WIDE(0xb5), &a));
    GIVES(OSNMA_DSM_KROOT, osnma_dsm_type(0xbf, &a));
    GIVES(OSNMA_DSM_PKR, osnma_dsm_type(0xc0, &a));
    REFUSED(7, osnma_dsm_type(UINT64_MAX, &a));
}

/* Receiver Guidelines v1.3, A.5.2: key size, week, alpha and root key. The rest is made up, with
 * all reserved bits set: 8 blocks, tags of 40 bits, table 34, hour 142. */
#define ROOT_KEY "5BF8C9CBFCF70422081475FD445DF0FF"
#define EIGHT "A0A1A2A3A4A5A6A7"
#define KROOT                                             \
    "21B94922F4E08E610BDF26D77B" ROOT_KEY                 \
    EIGHT EIGHT EIGHT EIGHT EIGHT EIGHT EIGHT EIGHT       \
    "0102030405060708090A0B"

static void kroot_numbers(void)
{
    GIVES(8, osnma_kroot_number_of_blocks(ALL(KROOT), &a));
    REFUSED(5, osnma_kroot_number_of_blocks(NULL, 0, &a));
    REFUSED(6, osnma_kroot_number_of_blocks(ALL("00"), &a)); /* P4 */
    REFUSED(6, osnma_kroot_number_of_blocks(ALL("90"), &a)); /* P4 */
    GIVES(14, osnma_kroot_number_of_blocks(ALL("80"), &a));  /* P4 */
    GIVES(1, osnma_kroot_public_key_id(ALL(KROOT), &a));
    REFUSED(5, osnma_kroot_public_key_id(LEN(KROOT, 0), &a));
    GIVES(2, osnma_kroot_chain_id(ALL(KROOT), &a));
    REFUSED(5, osnma_kroot_chain_id(LEN(KROOT, 1), &a));
    GIVES(OSNMA_HF_SHA3_256, osnma_kroot_hash_function(ALL(KROOT), &a));
    GIVES(1, osnma_kroot_hash_function(ALL("0006"), &a));
    REFUSED(5, osnma_kroot_hash_function(LEN(KROOT, 1), &a));
    GIVES(OSNMA_MF_CMAC_AES, osnma_kroot_mac_function(ALL(KROOT), &a));
    GIVES(2, osnma_kroot_mac_function(ALL("0006"), &a));
    REFUSED(5, osnma_kroot_mac_function(LEN(KROOT, 1), &a));
    GIVES(16, osnma_kroot_key_size_bytes(ALL(KROOT), &a));
    GIVES(12, osnma_kroot_key_size_bytes(ALL("000000"), &a));
    GIVES(32, osnma_kroot_key_size_bytes(ALL("00008F"), &a));
    REFUSED(6, osnma_kroot_key_size_bytes(ALL("000095"), &a));
    REFUSED(5, osnma_kroot_key_size_bytes(LEN(KROOT, 2), &a));
    GIVES(40, osnma_kroot_tag_size(ALL(KROOT), &a));
    GIVES(20, osnma_kroot_tag_size(ALL("0000F5"), &a));
    REFUSED(6, osnma_kroot_tag_size(ALL("000004"), &a));
    REFUSED(6, osnma_kroot_tag_size(ALL("00000A"), &a));
    REFUSED(5, osnma_kroot_tag_size(LEN(KROOT, 2), &a));
    GIVES(34, osnma_kroot_mac_lookup_table(ALL(KROOT), &a));
    REFUSED(5, osnma_kroot_mac_lookup_table(LEN(KROOT, 3), &a));
    GIVES(1248, osnma_kroot_wn(ALL(KROOT), &a));
    REFUSED(5, osnma_kroot_wn(LEN(KROOT, 5), &a));
    GIVES(142, osnma_kroot_towh(LEN(KROOT, 7), &a));
    REFUSED(5, osnma_kroot_towh(LEN(KROOT, 6), &a));
    GIVES(UINT64_C(0x610bdf26d77b), osnma_kroot_alpha(LEN(KROOT, 13), &a));
    REFUSED(5, osnma_kroot_alpha(LEN(KROOT, 12), &a));
}

/* A key of 16 bytes, so that signature and padding start at 29. P9: 104 bytes are P-256, 169 are
 * P-521, 117 are neither. */
static void kroot_parts(void)
{
    PART(13, 16, osnma_kroot_kroot(LEN(KROOT, 29), &a, &b));
    REFUSED(5, osnma_kroot_kroot(LEN(KROOT, 2), &a, &b));
    REFUSED(6, osnma_kroot_kroot(ALL("000090"), &a, &b));
    REFUSED(5, osnma_kroot_kroot(LEN(KROOT, 28), &a, &b));

    GIVES(OSNMA_ECDSA_P256, osnma_kroot_ecdsa_function(ALL(KROOT), &a));
    GIVES(OSNMA_ECDSA_P521, osnma_kroot_ecdsa_function(LEN(KROOT, 169), &a));
    REFUSED(11, osnma_kroot_ecdsa_function(LEN(KROOT, 117), &a));
    REFUSED(11, osnma_kroot_ecdsa_function(LEN(KROOT, 29), &a));
    REFUSED(5, osnma_kroot_ecdsa_function(LEN(KROOT, 28), &a));
    REFUSED(6, osnma_kroot_ecdsa_function(LEN("000090", 104), &a));
    REFUSED(5, osnma_kroot_ecdsa_function(LEN(KROOT, 2), &a));

    PART(29, 64, osnma_kroot_digital_signature(ALL(KROOT), &a, &b));
    PART(29, 132, osnma_kroot_digital_signature(LEN(KROOT, 169), &a, &b));
    REFUSED(11, osnma_kroot_digital_signature(LEN(KROOT, 103), &a, &b));
    REFUSED(5, osnma_kroot_digital_signature(LEN(KROOT, 28), &a, &b));
    REFUSED(6, osnma_kroot_digital_signature(ALL("000090"), &a, &b));
    REFUSED(5, osnma_kroot_digital_signature(NULL, 0, &a, &b));

    PART(93, 11, osnma_kroot_padding(ALL(KROOT), &a, &b));
    PART(161, 8, osnma_kroot_padding(LEN(KROOT, 169), &a, &b));
    PART(91, 0, osnma_kroot_padding(LEN("100025", 91), &a, &b)); /* a key of 14 bytes */
    PART(169, 0, osnma_kroot_padding(LEN("700065", 169), &a, &b)); /* a key of 24 bytes */
    REFUSED(11, osnma_kroot_padding(LEN(KROOT, 105), &a, &b));
    REFUSED(5, osnma_kroot_padding(LEN(KROOT, 28), &a, &b));
    REFUSED(6, osnma_kroot_padding(ALL("0000F0"), &a, &b));
    REFUSED(5, osnma_kroot_padding(LEN(KROOT, 2), &a, &b));
}

/* Receiver Guidelines v1.3, A.7. The key is a P-256 key and leaves 6 bytes of 13 blocks. */
#define NODES                                                          \
    "7CBE05D9970CFC9E22D0A43A340EF557624453A2E821AADEAC989C405D78BA06" \
    "956380BAB0D2C939EC6208151040CCFFCF1FB7156178FD1255BA0AECAAA253F7" \
    "407B6C5DD4DF059FF8789474061301E1C34881DB7A367A913A3674300E21EAB1" \
    "24EF508389B7D446C3E2ECE8D459FBBD3239A794906F5B1F92469C640164FD87"
#define NEW_KEY "0303B2CE64BC207BDD8BC4DF859187FCB686320D63FFA091410FC158FBB77980EA"
#define PKR "71" NODES "12" NEW_KEY "000000000000"

static void pkr_numbers(void)
{
    GIVES(13, osnma_pkr_number_of_blocks(ALL(PKR), &a));
    REFUSED(5, osnma_pkr_number_of_blocks(NULL, 0, &a));
    REFUSED(6, osnma_pkr_number_of_blocks(ALL("60"), &a)); /* P5 */
    REFUSED(6, osnma_pkr_number_of_blocks(ALL("B0"), &a)); /* P5 */
    GIVES(16, osnma_pkr_number_of_blocks(ALL("A0"), &a));  /* P5 */
    GIVES(1, osnma_pkr_message_id(ALL(PKR), &a));
    REFUSED(5, osnma_pkr_message_id(LEN(PKR, 0), &a));
    GIVES(OSNMA_NPKT_P256, osnma_pkr_new_public_key_type(ALL(PKR), &a));
    GIVES(15, osnma_pkr_new_public_key_type(ALL("71" NODES "F2"), &a));
    REFUSED(5, osnma_pkr_new_public_key_type(LEN(PKR, 129), &a));
    GIVES(2, osnma_pkr_new_public_key_id(LEN(PKR, 130), &a));
    REFUSED(5, osnma_pkr_new_public_key_id(LEN(PKR, 129), &a));
    GIVES(33, osnma_pkr_key_size(LEN(PKR, 130), &a));
    GIVES(67, osnma_pkr_key_size(ALL("01" NODES "30"), &a));
    GIVES(39, osnma_pkr_key_size(ALL("70" NODES "40"), &a)); /* P12 */
    GIVES(78, osnma_pkr_key_size(ALL("A0" NODES "40"), &a));
    REFUSED(6, osnma_pkr_key_size(ALL("70" NODES "20"), &a));
    REFUSED(6, osnma_pkr_key_size(ALL("B0" NODES "40"), &a));
    REFUSED(5, osnma_pkr_key_size(ALL("B0" NODES), &a));
}

static void pkr_parts(void)
{
    PART(1, 32, osnma_pkr_intermediate_tree_node(LEN(PKR, 33), 0, &a, &b));
    PART(33, 32, osnma_pkr_intermediate_tree_node(ALL(PKR), 1, &a, &b));
    PART(65, 32, osnma_pkr_intermediate_tree_node(ALL(PKR), 2, &a, &b));
    PART(97, 32, osnma_pkr_intermediate_tree_node(LEN(PKR, 129), 3, &a, &b));
    REFUSED(5, osnma_pkr_intermediate_tree_node(LEN(PKR, 128), 3, &a, &b));
    REFUSED(7, osnma_pkr_intermediate_tree_node(ALL(PKR), 4, &a, &b));
    REFUSED(7, osnma_pkr_intermediate_tree_node(ALL(PKR), WIDE(0), &a, &b));
    REFUSED(7, osnma_pkr_intermediate_tree_node(NULL, 0, 4, &a, &b));

    PART(130, 33, osnma_pkr_new_public_key(LEN(PKR, 163), &a, &b));
    PART(130, 39, osnma_pkr_new_public_key(LEN("70" NODES "40", 169), &a, &b)); /* P12 */
    PART(130, 67, osnma_pkr_new_public_key(LEN("70" NODES "30", 197), &a, &b));
    REFUSED(5, osnma_pkr_new_public_key(LEN(PKR, 162), &a, &b));
    REFUSED(6, osnma_pkr_new_public_key(ALL("70" NODES "00"), &a, &b));
    REFUSED(6, osnma_pkr_new_public_key(ALL("00" NODES "40"), &a, &b));
    REFUSED(5, osnma_pkr_new_public_key(ALL("00" NODES), &a, &b));

    PART(163, 6, osnma_pkr_padding(ALL(PKR), &a, &b));
    PART(197, 11, osnma_pkr_padding(LEN("A0" NODES "30", 208), &a, &b));
    PART(169, 0, osnma_pkr_padding(LEN("70" NODES "40", 169), &a, &b));
    REFUSED(5, osnma_pkr_padding(LEN(PKR, 168), &a, &b));
    REFUSED(11, osnma_pkr_padding(LEN("90" NODES "30", 208), &a, &b));
    REFUSED(11, osnma_pkr_padding(ALL("70" NODES "30"), &a, &b));
    REFUSED(6, osnma_pkr_padding(LEN("60" NODES "10", 208), &a, &b));
    REFUSED(6, osnma_pkr_padding(LEN("70" NODES "20", 208), &a, &b));
    REFUSED(5, osnma_pkr_padding(ALL("60" NODES), &a, &b));

    PART(129, 34, osnma_pkr_merkle_tree_leaf(LEN(PKR, 163), &a, &b));
    REFUSED(5, osnma_pkr_merkle_tree_leaf(LEN(PKR, 162), &a, &b));
    REFUSED(6, osnma_pkr_merkle_tree_leaf(ALL("70" NODES "50"), &a, &b));
    REFUSED(5, osnma_pkr_merkle_tree_leaf(ALL("00" NODES), &a, &b));
}

/* Receiver Guidelines v1.3, A.6.5.1: tag 0 with its COP, and the tag that is number 2 here, with
 * PRND 2, ADKD 4 and COP 15. The rest is made up. */
#define CHAIN_KEY "F0E1D2C3B4A5968778695A4B3C2D1E0F"
#define MACK                                         \
    "E37BC4F858" "ABCF" "1122334455" "0C05"          \
    "7BB238C883" "024F" "66778899AA" "FFC1"          \
    "BBCCDDEEFF" "2535" "0123456789" "2401"          \
    CHAIN_KEY "5A5A"

static void mack_tags(void)
{
    GIVES(6, osnma_mack_num_tags(16, 40, &a));  /* P6, where K is 128 bits */
    GIVES(9, osnma_mack_num_tags(16, 20, &a));  /* P7 */
    GIVES(10, osnma_mack_num_tags(12, 20, &a)); /* P8, where K is 96 bits */
    GIVES(4, osnma_mack_num_tags(32, 40, &a));
    REFUSED(7, osnma_mack_num_tags(17, 40, &a));
    REFUSED(7, osnma_mack_num_tags(16, 0, &a));
    REFUSED(7, osnma_mack_num_tags(WIDE(16), 40, &a));
    REFUSED(7, osnma_mack_num_tags((UINT64_C(1) << 61) + 16, 40, &a)); /* eight times it is 128 */

    GIVES(UINT64_C(0xe37bc4f858), osnma_mack_tag0(ALL(MACK), 16, 40, &a));
    GIVES(0xe37bc, osnma_mack_tag0(ALL(MACK), 16, 20, &a));
    REFUSED(1, osnma_mack_tag0(LEN(MACK, 59), 16, 40, &a));
    REFUSED(1, osnma_mack_tag0(LEN(MACK, 61), 0, 0, &a));
    REFUSED(7, osnma_mack_tag0(ALL(MACK), 16, 36, &a));
    GIVES(0xabc, osnma_mack_macseq(ALL(MACK), 16, 40, &a));
    REFUSED(1, osnma_mack_macseq(NULL, 0, 16, 40, &a));
    REFUSED(7, osnma_mack_macseq(ALL(MACK), 17, 40, &a));
    GIVES(15, osnma_mack_cop(ALL(MACK), 16, 40, &a));
    GIVES(5, osnma_mack_cop(ALL(MACK), 16, 20, &a));
    REFUSED(1, osnma_mack_cop(LEN(MACK, 61), 16, 40, &a));
    REFUSED(7, osnma_mack_cop(ALL(MACK), 0, 40, &a));

    GIVES(UINT64_C(0x7bb238c883), osnma_mack_tag(ALL(MACK), 16, 40, 2, &a));
    GIVES(0x8abcf, osnma_mack_tag(ALL(MACK), 16, 20, 1, &a)); /* half a byte in */
    GIVES(0x401f0, osnma_mack_tag(ALL(MACK), 12, 20, 9, &a));
    REFUSED(7, osnma_mack_tag(ALL(MACK), 16, 40, 0, &a));
    REFUSED(7, osnma_mack_tag(ALL(MACK), 16, 40, 6, &a));
    REFUSED(7, osnma_mack_tag(ALL(MACK), 16, 40, WIDE(2), &a));
    REFUSED(7, osnma_mack_tag(ALL(MACK), 16, 41, 2, &a));
    REFUSED(1, osnma_mack_tag(LEN(MACK, 59), 16, 41, 0, &a));
    GIVES(0x024f, osnma_mack_tag_info(ALL(MACK), 16, 40, 2, &a));
    GIVES(0x7892, osnma_mack_tag_info(ALL(MACK), 16, 20, 8, &a));
    REFUSED(7, osnma_mack_tag_info(ALL(MACK), 16, 20, 9, &a));
    REFUSED(1, osnma_mack_tag_info(LEN(MACK, 59), 16, 40, 2, &a));
    GIVES(2, osnma_mack_prnd(ALL(MACK), 16, 40, 2, &a));
    GIVES(OSNMA_PRND_CONSTELLATION, osnma_mack_prnd(ALL(MACK), 16, 40, 3, &a));
    GIVES(37, osnma_mack_prnd(ALL(MACK), 16, 40, 4, &a));
    REFUSED(7, osnma_mack_prnd(ALL(MACK), 16, 40, 0, &a));
    REFUSED(1, osnma_mack_prnd(LEN(MACK, 61), 16, 40, 2, &a));
    GIVES(OSNMA_ADKD_INAV_TIMING, osnma_mack_adkd(ALL(MACK), 16, 40, 2, &a));
    GIVES(OSNMA_ADKD_SLOW_MAC, osnma_mack_adkd(ALL(MACK), 16, 40, 3, &a));
    GIVES(3, osnma_mack_adkd(ALL(MACK), 16, 40, 4, &a));
    REFUSED(7, osnma_mack_adkd(ALL(MACK), 16, 40, 6, &a));
    REFUSED(1, osnma_mack_adkd(LEN(MACK, 0), 16, 40, 2, &a));
    GIVES(15, osnma_mack_tag_cop(ALL(MACK), 16, 40, 2, &a));
    GIVES(1, osnma_mack_tag_cop(ALL(MACK), 16, 40, 5, &a));
    REFUSED(7, osnma_mack_tag_cop(ALL(MACK), 16, 40, 6, &a));
    REFUSED(1, osnma_mack_tag_cop(LEN(MACK, 59), 16, 40, 2, &a));
}

static void mack_key(void)
{
    COPIES(CHAIN_KEY, osnma_mack_key(ALL(MACK), 16, 40, out, 16)); /* P6 */
    COPIES("401F0E1D2C3B4A5968778695A4B3C2D1",
           osnma_mack_key(ALL(MACK), 16, 20, out, 16)); /* P7, half a byte in */
    COPIES("C3B4A5968778695A4B3C2D1E", osnma_mack_key(ALL(MACK), 12, 20, out, 12)); /* P8 */
    COPIES("BBCCDDEEFF253501234567892401F0E1D2C3B4A5968778695A4B3C2D1E0F5A5A",
           osnma_mack_key(ALL(MACK), 32, 40, out, 32));
    REFUSED(1, osnma_mack_key(ALL(MACK), 16, 40, out, 15));
    REFUSED(1, osnma_mack_key(ALL(MACK), 16, 40, out, 17));
    REFUSED(1, osnma_mack_key(ALL(MACK), 16, 40, NULL, 0));
    REFUSED(7, osnma_mack_key(ALL(MACK), 16, 39, out, 15));
    REFUSED(7, osnma_mack_key(ALL(MACK), 0, 40, NULL, 0));
    REFUSED(1, osnma_mack_key(LEN(MACK, 59), 16, 39, out, 16));
}

static void maclt(void)
{
    SLOT(0, OSNMA_ADKD_INAV_TIMING, OSNMA_OBJECT_SELF,
         osnma_get_maclt_entry(28, 1, 6, &a, &b, &c)); /* P11 */
    REFUSED(9, osnma_get_maclt_entry(28, 1, 10, &a, &b, &c)); /* P11 */
    SLOT(0, OSNMA_ADKD_SLOW_MAC, OSNMA_OBJECT_CROSS,
         osnma_get_maclt_entry(33, 1, 5, &a, &b, &c));
    SLOT(0, OSNMA_ADKD_INAV_CED, OSNMA_OBJECT_CROSS,
         osnma_get_maclt_entry(27, 0, 1, &a, &b, &c));
    SLOT(1, 0, 0, osnma_get_maclt_entry(35, 1, 5, &a, &b, &c));
    REFUSED(7, osnma_get_maclt_entry(27, 2, 1, &a, &b, &c));
    REFUSED(7, osnma_get_maclt_entry(0, 0, 0, &a, &b, &c));
    REFUSED(8, osnma_get_maclt_entry(283, 0, 1, &a, &b, &c));
    REFUSED(8, osnma_get_maclt_entry(WIDE(27), 0, 1, &a, &b, &c));
    REFUSED(8, osnma_get_maclt_entry(32, 0, 99, &a, &b, &c));
    REFUSED(9, osnma_get_maclt_entry(27, 0, WIDE(1), &a, &b, &c));

    FLX(4, "01020405", osnma_get_flx_indices(35, 1, &a, out, 4)); /* P10 */
    FLX(1, "01000000", osnma_get_flx_indices(39, 1, &a, out, 4));
    FLX(0, "00000000", osnma_get_flx_indices(27, 0, &a, out, 4));
    REFUSED(1, osnma_get_flx_indices(35, 1, &a, out, 3));
    REFUSED(1, osnma_get_flx_indices(35, 2, &a, out, 5));
    REFUSED(1, osnma_get_flx_indices(35, 1, &a, NULL, 0));
    REFUSED(7, osnma_get_flx_indices(0, 2, &a, out, 4));
    REFUSED(8, osnma_get_flx_indices(283, 1, &a, out, 4));

    GIVES(6, osnma_maclt_nt(27, &a));
    GIVES(10, osnma_maclt_nt(28, &a));
    GIVES(4, osnma_maclt_nt(41, &a));
    REFUSED(8, osnma_maclt_nt(42, &a));
    REFUSED(8, osnma_maclt_nt(WIDE(27), &a));
}

/* So many digits of a hexadecimal text, from one of them on: a digit is half a byte. */
static const char *digits(const char *text, uint64_t first, uint64_t many)
{
    static char part[2 * sizeof out + 1];
    for (uint64_t i = 0; i < many; i++) part[i] = text[first + i];
    part[many] = 0;
    return part;
}

/* By code; 0 is a reserved one. */
static const uint64_t key_sizes[16] = {12, 13, 14, 15, 16, 20, 24, 28, 32}; /* in bytes */
static const uint64_t tag_sizes[16] = {[5] = 20, 24, 28, 32, 40};           /* in bits */

/* The pairs of a listed key size and a listed tag size. */
#define PAIRS (9 * 5)
#define KEY(pair) key_sizes[(pair) / 5]
#define TAG(pair) tag_sizes[5 + (pair) % 5]

/* The lists of sizes and counts, the key of every pair of sizes, and nt of every table ID.
 * 0: refused. */
static void lists(void)
{
    static const uint64_t kroot_blocks[16] = {[1] = 7, 8, 9, 10, 11, 12, 13, 14};
    static const uint64_t pkr_blocks[16] = {[7] = 13, 14, 15, 16};
    static const uint64_t nt[256] = {
        [27] = 6, [28] = 10, [31] = 5, [33] = 6, 6, 6, 5, 5, 5, 4, 4, 4
    };
    for (unsigned i = 0; i < 16; i++) {
        uint8_t high[3] = {(uint8_t)(i << 4), 0, (uint8_t)(i << 4)}, low[3] = {0, 0, (uint8_t)i};
        LISTED(kroot_blocks[i], 6, osnma_kroot_number_of_blocks(high, 1, &a));
        LISTED(pkr_blocks[i], 6, osnma_pkr_number_of_blocks(high, 1, &a));
        LISTED(key_sizes[i], 6, osnma_kroot_key_size_bytes(high, 3, &a));
        LISTED(tag_sizes[i], 6, osnma_kroot_tag_size(low, 3, &a));
    }
    for (unsigned pair = 0; pair < PAIRS; pair++) {
        uint64_t key = KEY(pair), tag = TAG(pair), tags = (480 - 8 * key) / (tag + 16);
        GIVES(tags, osnma_mack_num_tags(key, tag, &a));
        COPIES(digits(MACK, tags * (tag + 16) / 4, 2 * key),
               osnma_mack_key(ALL(MACK), key, tag, out, (size_t)key));
    }
    for (unsigned id = 0; id < 256; id++) LISTED(nt[id], 8, osnma_maclt_nt(id, &a));
}

/* A key size in bits is refused by every function that takes one; so is one that was divided by 8. */
static void key_sizes_in_bits(void)
{
    for (unsigned pair = 0; pair < PAIRS; pair++) {
        uint64_t key = KEY(pair), tag = TAG(pair);
        REFUSED(7, osnma_mack_num_tags(8 * key, tag, &a));
        REFUSED(7, osnma_mack_num_tags(key / 8, tag, &a));
        REFUSED(7, osnma_mack_tag0(ALL(MACK), 8 * key, tag, &a));
        REFUSED(7, osnma_mack_macseq(ALL(MACK), 8 * key, tag, &a));
        REFUSED(7, osnma_mack_cop(ALL(MACK), 8 * key, tag, &a));
        REFUSED(7, osnma_mack_tag(ALL(MACK), 8 * key, tag, 1, &a));
        REFUSED(7, osnma_mack_tag_info(ALL(MACK), 8 * key, tag, 1, &a));
        REFUSED(7, osnma_mack_prnd(ALL(MACK), 8 * key, tag, 1, &a));
        REFUSED(7, osnma_mack_adkd(ALL(MACK), 8 * key, tag, 1, &a));
        REFUSED(7, osnma_mack_tag_cop(ALL(MACK), 8 * key, tag, 1, &a));
        REFUSED(7, osnma_mack_key(ALL(MACK), 8 * key, tag, out, (size_t)key));
    }
}

/* Key and tag size exchanged pass where both are 20, 24, 28 or 32: the manual says 12 unlike pairs. */
static void sizes_exchanged(void)
{
    unsigned pass = 0;
    for (unsigned pair = 0; pair < PAIRS; pair++) {
        uint64_t key = KEY(pair), tag = TAG(pair);
        int both = key >= 20 && tag <= 32;
        if (both && key != tag) pass++;
        LISTED(both ? (480 - 8 * tag) / (key + 16) : 0, 7, osnma_mack_num_tags(tag, key, &a));
    }
    checks++;
    if (pass == 12) return;
    failed++;
    printf("main.c:%d: %u pairs pass exchanged, wanted 12\n", __LINE__, pass);
}

static void bits(void)
{
    GIVES(0x23, osnma_read_bits(ALL("123456"), 4, 8, &a));
    GIVES(1, osnma_read_bits(ALL("01"), 7, 1, &a));
    GIVES(UINT64_C(0x23456789abcdef01), osnma_read_bits(ALL("123456789ABCDEF012"), 4, 64, &a));
    GIVES(UINT64_C(0x3456789abcdef012), osnma_read_bits(ALL("123456789ABCDEF012"), 8, 64, &a));
    REFUSED(5, osnma_read_bits(ALL("123456789ABCDEF012"), 9, 64, &a));
    REFUSED(5, osnma_read_bits(ALL("12"), UINT64_MAX, 64, &a));
    REFUSED(5, osnma_read_bits(NULL, 0, 0, 1, &a));
    REFUSED(7, osnma_read_bits(NULL, 0, 0, 0, &a));
    REFUSED(7, osnma_read_bits(ALL("123456789ABCDEF012"), 0, 65, &a));
    REFUSED(7, osnma_read_bits(ALL("12"), 0, WIDE(1), &a));
}

int main(void)
{
    nma_header();
    dsm_header();
    kroot_numbers();
    kroot_parts();
    pkr_numbers();
    pkr_parts();
    mack_tags();
    mack_key();
    maclt();
    lists();
    key_sizes_in_bits();
    sizes_exchanged();
    bits();
    printf("C test: %u checks, %u failed\n", checks, failed);
    return failed != 0;
}
