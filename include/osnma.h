/* osnma.h, version 2: readers of Galileo OSNMA messages, for C11 and C++.
 *
 * Changed since version 1: the size of a TESLA key is in BYTES, wherever it goes in or comes out:
 * 12, 13, 14, 15, 16, 20, 24, 28 or 32.
 * - A size in bits is always refused, with 7 unless the message's length is refused before: no
 *   number is a size in bits and one in bytes.
 * - osnma_kroot_key_size, which gave bits, is gone. osnma_kroot_key_size_bytes is there instead, so
 *   that firmware that still thinks in bits does not link.
 * - Firmware that still divides it by 8 gets 1 to 4, which is refused with 7 too. Hand it on as it
 *   is.
 * - Tag sizes stay in bits, since 20 and 28 are no whole bytes. But 20, 24, 28 and 32 now are sizes
 *   of a key and of a tag: key and tag size EXCHANGED are not always refused any more. 12 pairs
 *   pass, any two different ones of these four, and what is then read means nothing. The key's size
 *   comes first in every function, and the names of the parameters say the unit.
 */
#ifndef OSNMA_H
#define OSNMA_H

/* Raised where firmware written for the version before has to be changed. Version 1 had none. */
#define OSNMA_VERSION 2

/* How it works
 *
 * The functions take fields out of messages that the receiver has put together: the NMA header, the
 * DSM header, DSM-KROOT, DSM-PKR and MACK messages; and they look up the MAC look-up table. No
 * signature, hash or key is checked here: that a message can be read does not make it genuine.
 * Names of fields are those of the OSNMA SIS ICD v1.1 as the Rust galileo-osnma gives them, with an
 * underscore in DSM_ID, DSM_BLOCK_ID, WN_K and TOWH_K. ITN and P_DP, which it has not, are ours.
 *
 *     uint64_t week;
 *     uint32_t refusal = osnma_kroot_wn(msg, len, &week);
 *     if (refusal != OSNMA_OK) ...            -- week is as it was
 *
 * How to call them
 * - A function returns 0 and writes every result, or it returns the number of a refusal (enum
 *   osnma_refusal) and writes nothing. "Refuses" lists its refusals in the order in which they are
 *   tested: the first that applies is returned. No other comes up.
 * - Numbers go in as uint64_t and are tested whole: table ID 283 is unknown, and not taken for 27.
 * - A message is given by its first byte and its length in bytes, and is only read. Whatever
 *   it holds, it is answered or refused. Bits are numbered from 0, the high bit of byte 0.
 * - A part of a message comes back as first and many: it is the many bytes from msg + first on, and
 *   lies inside the message. many can be 0, as for padding: that is a good answer.
 * - A field some of whose numbers are reserved is given as it stands, reserved numbers too, unless
 *   it says a size or a count: then a reserved number is refused with 6.
 * - Nothing is kept between calls and no memory is allocated. Every call ends. The functions may be
 *   called from any thread and from interrupts, also while another call runs.
 * - A call takes at most 128 bytes of stack, its return address among them (measured: 88). They may
 *   lie below the stack pointer, in the red zone of the calling convention: whoever interrupts a
 *   call leaves it alone. Vector registers are used, as by any function of that convention.
 *
 * What the caller must see to, since the functions cannot test it
 * - msg points to len bytes that may be read; out and positions to as many bytes as the length that
 *   follows them, which may be written. Such a pointer may be NULL only if its length is 0.
 * - Each pointer to uint64_t points to one that may be written. It is never NULL.
 * - The memory for results overlaps neither the message nor other results of the same call.
 * - Key and tag size are those of the chain that the message is of, and are not exchanged.
 * - Nobody else writes to the message, or touches the memory for results, during the call.
 *
 * The functions are in libfirmware.a, for x86-64 with the System V calling convention.
 */
#include <stddef.h>
#include <stdint.h>

#ifdef __cplusplus
extern "C" {
#endif

/* --- Numbers ---------------------------------------------------------------------------------- */

/* Refusals. The functions of this file give 1, 5, 6, 7, 8, 9 and 11. The others are listed because
 * the numbering is shared with the collectors of messages, which are not part of this file. */
enum osnma_refusal {
    OSNMA_OK = 0,                  /* not refused */
    OSNMA_REFUSED_LENGTH = 1,      /* a lent slice hasn't the stated length */
    OSNMA_REFUSED_SATELLITE = 2,   /* satellite number not 1..36 (not given here) */
    OSNMA_REFUSED_WEEK = 3,        /* week above 4,095 (not given here) */
    OSNMA_REFUSED_TIME = 4,        /* time of week above 604,799 (not given here) */
    OSNMA_REFUSED_PAST_END = 5,    /* a field needs a byte past the message's end */
    OSNMA_REFUSED_RESERVED = 6,    /* a reserved number stands where a size or count is needed */
    OSNMA_REFUSED_RANGE = 7,       /* another argument outside its stated range */
    OSNMA_REFUSED_TABLE_ID = 8,    /* table ID unknown */
    OSNMA_REFUSED_TAG_NUMBER = 9,  /* tag number at or above the entry's nt */
    OSNMA_REFUSED_FULL = 10,       /* a message is stored at the current place's time and that
                                      place has 36 (not given here) */
    OSNMA_REFUSED_CONTRADICT = 11, /* lengths inside a message contradict each other */
    OSNMA_REFUSED_RECORD = 12      /* a record handed in has a number outside its range (not given
                                      here) */
};

/* NMAS, NMA status. */
enum osnma_nmas {
    OSNMA_NMAS_RESERVED = 0,
    OSNMA_NMAS_TEST = 1,
    OSNMA_NMAS_OPERATIONAL = 2,
    OSNMA_NMAS_DONT_USE = 3
};

/* CPKS, chain and public key status. */
enum osnma_cpks {
    OSNMA_CPKS_RESERVED = 0,
    OSNMA_CPKS_NOMINAL = 1,
    OSNMA_CPKS_END_OF_CHAIN = 2,
    OSNMA_CPKS_CHAIN_REVOKED = 3,
    OSNMA_CPKS_NEW_PUBLIC_KEY = 4,
    OSNMA_CPKS_PUBLIC_KEY_REVOKED = 5,
    OSNMA_CPKS_NEW_MERKLE_TREE = 6,
    OSNMA_CPKS_ALERT_MESSAGE = 7
};

/* The type of a DSM, by its ID. */
enum osnma_dsm {
    OSNMA_DSM_KROOT = 0, /* DSM ID 0..11 */
    OSNMA_DSM_PKR = 1    /* DSM ID 12..15 */
};

/* HF, hash function. 1 and 3 are reserved. */
enum osnma_hf {
    OSNMA_HF_SHA_256 = 0,
    OSNMA_HF_SHA3_256 = 2
};

/* MF, MAC function. 2 and 3 are reserved. */
enum osnma_mf {
    OSNMA_MF_HMAC_SHA_256 = 0,
    OSNMA_MF_CMAC_AES = 1
};

/* The function of a DSM-KROOT's signature: the number in the curve's name. */
enum osnma_ecdsa {
    OSNMA_ECDSA_P256 = 256, /* P-256 with SHA-256, a signature of 64 bytes */
    OSNMA_ECDSA_P521 = 521  /* P-521 with SHA-512, a signature of 132 bytes */
};

/* NPKT, type of the new public key. The other numbers of 0..15 are reserved. */
enum osnma_npkt {
    OSNMA_NPKT_P256 = 1, /* a key of 33 bytes */
    OSNMA_NPKT_P521 = 3, /* a key of 67 bytes */
    OSNMA_NPKT_ALERT = 4 /* OSNMA alert message: the field reaches to the end of the last block */
};

/* PRND of a tag: 1..36 is a satellite. Numbers that are neither that nor listed are reserved. */
enum osnma_prnd {
    OSNMA_PRND_CONSTELLATION = 255
};

/* ADKD, what a tag authenticates. The other numbers of 0..15 are reserved. */
enum osnma_adkd {
    OSNMA_ADKD_INAV_CED = 0,    /* I/NAV ephemeris, clock and status */
    OSNMA_ADKD_INAV_TIMING = 4, /* I/NAV timing parameters */
    OSNMA_ADKD_SLOW_MAC = 12    /* as 0, slow MAC */
};

/* The object of a slot of the MAC look-up table. */
enum osnma_object {
    OSNMA_OBJECT_SELF = 0, /* S, self-authentication */
    OSNMA_OBJECT_CROSS = 1 /* E, cross-authentication */
};

/* Sizes. */
#define OSNMA_DSM_BLOCK_BYTES 13 /* a DSM is that many bytes for each of its blocks */
#define OSNMA_DSM_MAX_BYTES 208  /* the longest DSM, of 16 blocks */
#define OSNMA_TREE_NODE_BYTES 32 /* a tree node of a DSM-PKR */
#define OSNMA_MACK_BYTES 60      /* a MACK message */
#define OSNMA_MAX_KEY_BYTES 32   /* the longest TESLA key */
#define OSNMA_MAX_TAGS 10        /* the most tags of a MACK message */
#define OSNMA_FLX_BYTES 4        /* positions of osnma_get_flx_indices */

/* --- NMA header: byte 0 of an HKROOT message -------------------------------------------------- */

/* header is the byte, 0..255. */

/* NMAS, bits 0..1: 0..3, enum osnma_nmas. Refuses: 7 header above 255. */
uint32_t osnma_nma_status(uint64_t header, uint64_t *value);

/* CID, the chain ID, bits 2..3: 0..3. Refuses: 7 header above 255. */
uint32_t osnma_chain_id(uint64_t header, uint64_t *value);

/* CPKS, bits 4..6: 0..7, enum osnma_cpks. Refuses: 7 header above 255. */
uint32_t osnma_chain_and_pubkey_status(uint64_t header, uint64_t *value);

/* --- DSM header: byte 1 of an HKROOT message -------------------------------------------------- */

/* header is the byte, 0..255. */

/* DSM_ID, bits 0..3: 0..15. Refuses: 7 header above 255. */
uint32_t osnma_dsm_id(uint64_t header, uint64_t *value);

/* DSM_BLOCK_ID, the number of the block, bits 4..7: 0..15. Refuses: 7 header above 255. */
uint32_t osnma_dsm_block_id(uint64_t header, uint64_t *value);

/* The type that goes with DSM_ID: enum osnma_dsm. Refuses: 7 header above 255. */
uint32_t osnma_dsm_type(uint64_t header, uint64_t *value);

/* --- DSM-KROOT -------------------------------------------------------------------------------- */

/* msg is the whole message, the blocks one after the other. len is not compared with NB_DK. */

/* NB_DK, bits 0..3, as the number of blocks: 1..8 stand for 7..14.
 * Refuses: 5 len 0; 6 NB_DK not 1..8. */
uint32_t osnma_kroot_number_of_blocks(const uint8_t *msg, size_t len, uint64_t *value);

/* PKID, the ID of the public key, bits 4..7: 0..15. Refuses: 5 len 0. */
uint32_t osnma_kroot_public_key_id(const uint8_t *msg, size_t len, uint64_t *value);

/* CIDKR, the chain ID of the key, bits 8..9: 0..3. Refuses: 5 len below 2. */
uint32_t osnma_kroot_chain_id(const uint8_t *msg, size_t len, uint64_t *value);

/* HF, bits 12..13: 0..3, enum osnma_hf; 1 and 3 are reserved. Refuses: 5 len below 2. */
uint32_t osnma_kroot_hash_function(const uint8_t *msg, size_t len, uint64_t *value);

/* MF, bits 14..15: 0..3, enum osnma_mf; 2 and 3 are reserved. Refuses: 5 len below 2. */
uint32_t osnma_kroot_mac_function(const uint8_t *msg, size_t len, uint64_t *value);

/* KS, bits 16..19, as the size of a TESLA key in BYTES:
 * 0..8 stand for 12, 13, 14, 15, 16, 20, 24, 28, 32.
 * Refuses: 5 len below 3; 6 KS above 8. */
uint32_t osnma_kroot_key_size_bytes(const uint8_t *msg, size_t len, uint64_t *key_size_bytes);

/* TS, bits 20..23, as the size of a tag in BITS: 5..9 stand for 20, 24, 28, 32, 40.
 * Refuses: 5 len below 3; 6 TS not 5..9. */
uint32_t osnma_kroot_tag_size(const uint8_t *msg, size_t len, uint64_t *tag_size_bits);

/* MACLT, the ID of the MAC look-up table, bits 24..31: 0..255, known or not.
 * Refuses: 5 len below 4. */
uint32_t osnma_kroot_mac_lookup_table(const uint8_t *msg, size_t len, uint64_t *value);

/* WN_K, the week of the key, bits 36..47: 0..4095. Refuses: 5 len below 6. */
uint32_t osnma_kroot_wn(const uint8_t *msg, size_t len, uint64_t *value);

/* TOWH_K, the time of the key in hours of the week, bits 48..55: 0..255 as it stands, also where no
 * week has that hour. Refuses: 5 len below 7. */
uint32_t osnma_kroot_towh(const uint8_t *msg, size_t len, uint64_t *value);

/* alpha, the random pattern, bits 56..103: a number of 48 bits. Refuses: 5 len below 13. */
uint32_t osnma_kroot_alpha(const uint8_t *msg, size_t len, uint64_t *value);

/* KROOT, the root key: first is 13, many its bytes k, the size that KS stands for.
 * Refuses: 5 len below 3; 6 KS above 8; 5 len below 13 + k. */
uint32_t osnma_kroot_kroot(const uint8_t *msg, size_t len, uint64_t *first, uint64_t *many);

/* DS, the digital signature: first is 13 + k, many is 64 (P-256) or 132 (P-521). Which one is told
 * by len: it is 13 plus k + 64 rounded up to a multiple of 13, or the same with 132 for 64.
 * With a key of 16 bytes that is 104 or 169.
 * Refuses: 5 len below 3; 6 KS above 8; 5 len below 13 + k; 11 len is neither of the two. */
uint32_t osnma_kroot_digital_signature(const uint8_t *msg, size_t len, uint64_t *first,
                                       uint64_t *many);

/* The function of the signature, as its length tells: 256 or 521, enum osnma_ecdsa.
 * Refuses as osnma_kroot_digital_signature does. */
uint32_t osnma_kroot_ecdsa_function(const uint8_t *msg, size_t len, uint64_t *value);

/* P_DK, the padding, from the end of the signature to the end of the message: many is 0..12.
 * Refuses as osnma_kroot_digital_signature does. */
uint32_t osnma_kroot_padding(const uint8_t *msg, size_t len, uint64_t *first, uint64_t *many);

/* --- DSM-PKR ---------------------------------------------------------------------------------- */

/* msg is the whole message, the blocks one after the other. len need not be 13 x blocks. */

/* NB_DP, bits 0..3, as the number of blocks: 7..10 stand for 13..16.
 * Refuses: 5 len 0; 6 NB_DP not 7..10. */
uint32_t osnma_pkr_number_of_blocks(const uint8_t *msg, size_t len, uint64_t *value);

/* MID, the message ID, bits 4..7: 0..15. Refuses: 5 len 0. */
uint32_t osnma_pkr_message_id(const uint8_t *msg, size_t len, uint64_t *value);

/* ITN, an intermediate tree node, node 0..3: first is 1 + 32 x node, many is 32.
 * Refuses: 7 node above 3; 5 len below 33 + 32 x node. */
uint32_t osnma_pkr_intermediate_tree_node(const uint8_t *msg, size_t len, uint64_t node,
                                          uint64_t *first, uint64_t *many);

/* NPKT, bits 1032..1035: 0..15, enum osnma_npkt, reserved numbers as they stand.
 * Refuses: 5 len below 130. */
uint32_t osnma_pkr_new_public_key_type(const uint8_t *msg, size_t len, uint64_t *value);

/* NPKID, the ID of the new public key, bits 1036..1039: 0..15. Refuses: 5 len below 130. */
uint32_t osnma_pkr_new_public_key_id(const uint8_t *msg, size_t len, uint64_t *value);

/* The size of NPK in BYTES, by NPKT: 1 is 33, 3 is 67, 4 is 13 x blocks - 130, that is 39, 52, 65
 * or 78. The bytes of the key need not be in the message.
 * Refuses: 5 len below 130; 6 NPKT not 1, 3 or 4; 6 NPKT 4 and NB_DP not 7..10. */
uint32_t osnma_pkr_key_size(const uint8_t *msg, size_t len, uint64_t *key_size_bytes);

/* NPK, the new public key: first is 130, many is osnma_pkr_key_size. It is given also where it ends
 * after 13 x blocks: only the padding refuses that.
 * Refuses: 5 len below 130; 6 NPKT not 1, 3 or 4; 6 NPKT 4 and NB_DP not 7..10;
 * 5 len below 130 + key size. */
uint32_t osnma_pkr_new_public_key(const uint8_t *msg, size_t len, uint64_t *first,
                                  uint64_t *many);

/* P_DP, the padding, from the end of the key to 13 x blocks. Bytes behind are not part of it.
 * Refuses: 5 len below 130; 6 NPKT not 1, 3 or 4; 6 NB_DP not 7..10, with any NPKT; 11 the key ends
 * after 13 x blocks (NPKT 3 with 13, 14 or 15 blocks); 5 len below 13 x blocks. */
uint32_t osnma_pkr_padding(const uint8_t *msg, size_t len, uint64_t *first, uint64_t *many);

/* The leaf of the Merkle tree, NPKT, NPKID and NPK: first is 129, many is 1 + osnma_pkr_key_size.
 * Refuses as osnma_pkr_new_public_key does. */
uint32_t osnma_pkr_merkle_tree_leaf(const uint8_t *msg, size_t len, uint64_t *first,
                                    uint64_t *many);

/* --- MACK ------------------------------------------------------------------------------------- */

/* msg has 60 bytes. k is key_size_bytes, in BYTES as osnma_kroot_key_size_bytes gives it for the
 * chain: 12, 13, 14, 15, 16, 20, 24, 28 or 32. T is tag_size_bits, in BITS as osnma_kroot_tag_size
 * gives it: 20, 24, 28, 32 or 40. nt is the number of tags, numbered 0 to nt - 1. Tag n starts at
 * bit n x (T + 16): its T bits, and then 16 bits, which are MACSEQ and COP behind tag 0, and PRND,
 * ADKD and COP behind the others. The TESLA key follows the last tag. */

/* nt = (480 - 8 x k) / (T + 16), rounded down: 4..10.
 * Refuses: 7 k or T not in its list. */
uint32_t osnma_mack_num_tags(uint64_t key_size_bytes, uint64_t tag_size_bits, uint64_t *value);

/* Tag 0: a number of T bits.
 * Refuses: 1 len not 60; 7 k or T not in its list. */
uint32_t osnma_mack_tag0(const uint8_t *msg, size_t len, uint64_t key_size_bytes,
                         uint64_t tag_size_bits, uint64_t *value);

/* MACSEQ, 12 bits behind tag 0: 0..4095.
 * Refuses: 1 len not 60; 7 k or T not in its list. */
uint32_t osnma_mack_macseq(const uint8_t *msg, size_t len, uint64_t key_size_bytes,
                           uint64_t tag_size_bits, uint64_t *value);

/* COP of tag 0, 4 bits behind MACSEQ: 0..15.
 * Refuses: 1 len not 60; 7 k or T not in its list. */
uint32_t osnma_mack_cop(const uint8_t *msg, size_t len, uint64_t key_size_bytes,
                        uint64_t tag_size_bits, uint64_t *value);

/* Tag number tag, 1 to nt - 1: a number of T bits. (For tag 0: osnma_mack_tag0.)
 * Refuses: 1 len not 60; 7 k or T not in its list; 7 tag not 1 to nt - 1. */
uint32_t osnma_mack_tag(const uint8_t *msg, size_t len, uint64_t key_size_bytes,
                        uint64_t tag_size_bits, uint64_t tag, uint64_t *value);

/* Tag-Info, the 16 bits behind tag 1 to nt - 1: PRND x 256 + ADKD x 16 + COP.
 * Refuses: 1 len not 60; 7 k or T not in its list; 7 tag not 1 to nt - 1. */
uint32_t osnma_mack_tag_info(const uint8_t *msg, size_t len, uint64_t key_size_bytes,
                             uint64_t tag_size_bits, uint64_t tag, uint64_t *value);

/* PRND, bits 0..7 of Tag-Info: 0..255, 1..36 a satellite, 255 the constellation, others reserved.
 * Refuses: 1 len not 60; 7 k or T not in its list; 7 tag not 1 to nt - 1. */
uint32_t osnma_mack_prnd(const uint8_t *msg, size_t len, uint64_t key_size_bytes,
                         uint64_t tag_size_bits, uint64_t tag, uint64_t *value);

/* ADKD, bits 8..11 of Tag-Info: 0..15, enum osnma_adkd, reserved numbers as they stand.
 * Refuses: 1 len not 60; 7 k or T not in its list; 7 tag not 1 to nt - 1. */
uint32_t osnma_mack_adkd(const uint8_t *msg, size_t len, uint64_t key_size_bytes,
                         uint64_t tag_size_bits, uint64_t tag, uint64_t *value);

/* COP, bits 12..15 of Tag-Info: 0..15.
 * Refuses: 1 len not 60; 7 k or T not in its list; 7 tag not 1 to nt - 1. */
uint32_t osnma_mack_tag_cop(const uint8_t *msg, size_t len, uint64_t key_size_bytes,
                            uint64_t tag_size_bits, uint64_t tag, uint64_t *value);

/* The TESLA key, k bytes, copied to out: it starts at bit nt x (T + 16), which may be half a byte
 * in. out_len is exactly k.
 * Refuses: 1 len not 60; 7 k or T not in its list; 1 out_len not k. */
uint32_t osnma_mack_key(const uint8_t *msg, size_t len, uint64_t key_size_bytes,
                        uint64_t tag_size_bits, uint8_t *out, size_t out_len);

/* --- MAC look-up table ------------------------------------------------------------------------ */

/* Known IDs: 27, 28, 31, 33 to 41. An ID has nt tags in each message, and two sequences, message 0
 * and message 1, with a slot for each of the tags 1 to nt - 1. */

/* The slot of a tag. flex is 1 for FLX, and then adkd and object are 0. Else flex is 0, adkd is 0,
 * 4 or 12 (enum osnma_adkd) and object is 0 or 1 (enum osnma_object).
 * Refuses: 7 message above 1 or tag 0; 8 id not known; 9 tag not below nt. */
uint32_t osnma_get_maclt_entry(uint64_t id, uint64_t message, uint64_t tag, uint64_t *flex,
                               uint64_t *adkd, uint64_t *object);

/* The tags whose slots are FLX: count of them, 0..4, and their numbers in the first count bytes of
 * positions, ascending. The bytes behind, up to 4, become 0. positions_len is exactly 4.
 * Refuses: 1 positions_len not 4; 7 message above 1; 8 id not known. */
uint32_t osnma_get_flx_indices(uint64_t id, uint64_t message, uint64_t *count, uint8_t *positions,
                               size_t positions_len);

/* nt of an ID: 4, 5, 6 or 10. Refuses: 8 id not known. */
uint32_t osnma_maclt_nt(uint64_t id, uint64_t *value);

/* --- Bits ------------------------------------------------------------------------------------- */

/* width bits of any message, from bit start on, as a number, the first bit the highest: for fields
 * that have no function of their own.
 * Refuses: 7 width not 1..64; 5 start + width above 8 x len. */
uint32_t osnma_read_bits(const uint8_t *msg, size_t len, uint64_t start, uint64_t width,
                         uint64_t *value);

#ifdef __cplusplus
}
#endif

#endif
