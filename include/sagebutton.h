/* Sagebutton for C (C99 or later) and C++ callers. Link target/staticlib/libsagebutton.a (x86-64 Linux), which bin/library builds.
 *
 * Every function answers for every input; none asks the caller to have checked anything. The result is one number:
 *   bits  0 to 31   what an accepted call answers, or the place of a refusal
 *   bits 32 to 47   0; of sagebutton_drill 1 if no number was found, and then all other bits are 0
 *   bits 48 to 63   the number of the refusal, 0 if the call was accepted
 * A refusal writes nothing. An accepted call writes to the front of its output; octets beyond that stay as they were.
 *
 * Keep a result in 64 bits, as a uint64_t: an int takes bits 0 to 31 alone, of which gcc and Clang warn only with -Wconversion, and
 * a refused call then looks accepted, with the place for an answer. As a condition every verdict is true, a refused one too, and of
 * sagebutton_says Absent is; and not present is not absent, for a refused verdict is neither. So:
 *     uint64_t verdict = sagebutton_verify(SAGEBUTTON_FULL, key, 20, digest, 32, att, att_len);
 *     if (sagebutton_is_present(verdict)) listed(); else if (sagebutton_is_absent(verdict)) not_listed();
 *     else nothing_is_shown(sagebutton_refusal(verdict));
 * or, so that -Wall reports a forgotten case, a switch over sagebutton_says(verdict) without a default, as docs/examples/attestations.c
 * has it.
 *
 * A key is any 20 octets; a code's key is its 1 to 20 ASCII octets, then zeros. sagebutton_attest and sagebutton_verify do not ask
 * whether a key is a code's: one made of `04-Mar` comes out absent. 60,000 octets hold the keys of every list that is accepted,
 * and 586 every attestation that is issued.
 *
 * Where there is a profile it comes first: SAGEBUTTON_FULL, in which a node's label is the SHA-256 of its record; or
 * SAGEBUTTON_DRILL, in which it is the first 2 octets of that and then 30 zeros, so that contradictions can be made and
 * watched. The drill protects nobody. Any other number is refused with 17 at 0, before all other refusals. A digest and an
 * attestation do not say which profile they are of: use one number throughout. A verdict in the wrong one is as a rule refused
 * with 10.
 *
 * What the caller must keep, since C cannot say it: each pointer is valid for its length and is not null, also for a length
 * of 0; an output overlaps no other argument; no length exceeds PTRDIFF_MAX; and during the call nothing else writes to the
 * arguments, neither another thread nor another process nor another mapping of the same file, and nobody shortens a mapped file:
 * what changes after it was judged can end in a memory fault. Whoever has such input copies it first and passes the copy. gcc with
 * -Wall reports of the first two what it can see.
 */
#ifndef SAGEBUTTON_H
#define SAGEBUTTON_H

#include <stddef.h>
#include <stdint.h>

/* Marks every function here: a compiler that can warns where a result is thrown away. */
#if (defined __cplusplus && __cplusplus >= 201703L) || (defined __STDC_VERSION__ && __STDC_VERSION__ >= 202311L)
#define SAGEBUTTON_NODISCARD [[nodiscard]]
#elif defined __GNUC__
#define SAGEBUTTON_NODISCARD __attribute__((__warn_unused_result__))
#else
#define SAGEBUTTON_NODISCARD
#endif

/* Marks the octets that every function is lent, so that a compiler that can warns of a null pointer, of an output that overlaps, and
 * of a length over what is there. The number is that of the pointer among the arguments; its length is the next argument. An output
 * is written only: it need not be set before. */
#ifdef __GNUC__
#define SAGEBUTTON_RESTRICT __restrict
#else
#define SAGEBUTTON_RESTRICT
#endif
#define SAGEBUTTON_IN(at) __access__(__read_only__, at, at + 1)
#define SAGEBUTTON_OUT(at) __access__(__write_only__, at, at + 1)
#ifdef __has_attribute
#if __has_attribute(__access__)
#define SAGEBUTTON_LENT(...) __attribute__((__nonnull__, __VA_ARGS__))
#endif
#endif
#if !defined SAGEBUTTON_LENT && defined __GNUC__
#define SAGEBUTTON_LENT(...) __attribute__((__nonnull__))
#elif !defined SAGEBUTTON_LENT
#define SAGEBUTTON_LENT(...)
#endif

#ifdef __cplusplus
extern "C" {
#endif

/* The number of the refusal; 0 for an accepted call. */
SAGEBUTTON_NODISCARD static inline unsigned sagebutton_refusal(uint64_t result) { return (unsigned)(result >> 48); }

/* What an accepted call answers, or the place of a refusal. */
SAGEBUTTON_NODISCARD static inline uint32_t sagebutton_value(uint64_t result) { return (uint32_t)result; }

/* SHA-256 (FIPS 180-4) of 0 to 65,535 octets into exactly 32. Answers msg_len.
 * Refuses: 1 at 0, msg_len over 65,535 or out_len not 32. */
SAGEBUTTON_NODISCARD SAGEBUTTON_LENT(SAGEBUTTON_IN(1), SAGEBUTTON_OUT(3))
uint64_t sagebutton_hash(const uint8_t *msg, size_t msg_len, uint8_t *SAGEBUTTON_RESTRICT out, size_t out_len);

/* Reads a list of codes and writes 20 octets per key. Answers the count.
 * Refuses, in this order: 1 at 0, text over 65,535 octets; 12 at the line, first or second line; 2 at 2, count 0; 4 at 2,
 * count over 3,000; 6 at 0, out_len under 20 times the count; then at the line: 14, no LF or no line; 13, not a code;
 * 5, not above the code before; last 14 at the count plus 3, octets left over. */
SAGEBUTTON_NODISCARD SAGEBUTTON_LENT(SAGEBUTTON_IN(1), SAGEBUTTON_OUT(3))
uint64_t sagebutton_read_list(const uint8_t *text, size_t text_len, uint8_t *SAGEBUTTON_RESTRICT out, size_t out_len);

/* The profiles. */
#define SAGEBUTTON_FULL 0u
#define SAGEBUTTON_DRILL 1u

/* The digest of a list of keys, 20 octets each and strictly ascending, into exactly 32 octets. Answers the number of keys.
 * Refuses, in this order: 17 at 0, an unknown profile; 1 at 0, out_len not 32; 2 at 0, no keys; 3 at 0, not a multiple of 20
 * octets; 4 at 0, over 3,000 keys; 5 at the index, counted from 0, of the first key not above the one before. */
SAGEBUTTON_NODISCARD SAGEBUTTON_LENT(SAGEBUTTON_IN(2), SAGEBUTTON_OUT(4))
uint64_t sagebutton_digest(uint32_t profile, const uint8_t *keys, size_t keys_len, uint8_t *SAGEBUTTON_RESTRICT out, size_t out_len);

/* The attestation for a key, listed or not, under a list of keys, 20 octets each and strictly ascending, into the front of out.
 * Answers its length.
 * Refuses, in this order: 17 at 0, an unknown profile; 1 at 0, key_len not 20; 2, 3, 4 and 5 as sagebutton_digest; 6 at 0,
 * out_len under the length. */
SAGEBUTTON_NODISCARD SAGEBUTTON_LENT(SAGEBUTTON_IN(2), SAGEBUTTON_IN(4), SAGEBUTTON_OUT(6))
uint64_t sagebutton_attest(uint32_t profile, const uint8_t *key, size_t key_len, const uint8_t *keys, size_t keys_len,
                           uint8_t *SAGEBUTTON_RESTRICT out, size_t out_len);

/* What an accepted attestation shows of the key: that it is listed, or that it is not. README.md, "What is assumed", says on what
 * that rests. It is proved that bits 0 to 31 of a refused verdict are never one of these numbers, since its place is at most 1,731:
 * a verdict that was cut to 32 bits after all does not turn a refusal into Present or Absent. */
#define SAGEBUTTON_PRESENT 65537
#define SAGEBUTTON_ABSENT 65536

/* What a verdict says of the key: that it is listed, that it is not, or, if it is refused, nothing. This looks at the refusal and the
 * value alone; do not compare the whole result, since bits 32 to 47 may come to hold something. The numbers are those above, so that
 * one name taken for the other does no harm. */
enum sagebutton_says {
    SAGEBUTTON_SAYS_NOTHING = 0,
    SAGEBUTTON_SAYS_PRESENT = SAGEBUTTON_PRESENT,
    SAGEBUTTON_SAYS_ABSENT = SAGEBUTTON_ABSENT
};
SAGEBUTTON_NODISCARD static inline enum sagebutton_says sagebutton_says(uint64_t verdict)
{
    if (sagebutton_refusal(verdict) != 0) return SAGEBUTTON_SAYS_NOTHING;
    if (sagebutton_value(verdict) == SAGEBUTTON_PRESENT) return SAGEBUTTON_SAYS_PRESENT;
    if (sagebutton_value(verdict) == SAGEBUTTON_ABSENT) return SAGEBUTTON_SAYS_ABSENT;
    return SAGEBUTTON_SAYS_NOTHING;
}

/* The same as two questions, each answered with 1 or 0. Not present is not absent: of a refused verdict both are 0. */
SAGEBUTTON_NODISCARD static inline int sagebutton_is_present(uint64_t verdict)
{
    return sagebutton_says(verdict) == SAGEBUTTON_SAYS_PRESENT;
}
SAGEBUTTON_NODISCARD static inline int sagebutton_is_absent(uint64_t verdict)
{
    return sagebutton_says(verdict) == SAGEBUTTON_SAYS_ABSENT;
}

/* The verdict on any octets, whoever made them, as an attestation for a key under a digest: SAGEBUTTON_PRESENT or
 * SAGEBUTTON_ABSENT, if it is not refused. A refusal says nothing of the key.
 * Refuses, in this order: 17 at 0, an unknown profile; 1 at 0, key_len not 20 or digest_len not 32; 7 at the offset of the first
 * octet that cannot stand there, or at att_len if the attestation ends early; 8 at 0, a child at the foot where the key would
 * be; 9 at the level, counted from the foot's 0, where the key itself stands above the foot or a key equals the one below it;
 * 10 at 0, the digest differs. */
SAGEBUTTON_NODISCARD SAGEBUTTON_LENT(SAGEBUTTON_IN(2), SAGEBUTTON_IN(4), SAGEBUTTON_IN(6))
uint64_t sagebutton_verify(uint32_t profile, const uint8_t *key, size_t key_len, const uint8_t *digest, size_t digest_len,
                           const uint8_t *att, size_t att_len);

/* From two attestations for one key under one digest that contradict each other, one accepted as present and the other as absent:
 * two different node records with the same label, the first attestation's into out1, the second's into out2, exactly 85 octets
 * each. Answers the number of levels, from the root down, on which the two still agree. docs/EVIDENCE.md says how anyone can check
 * such a pair.
 * Refuses, in this order: 17 at 0, an unknown profile; 1 at 0, key_len not 20, digest_len not 32, out1_len or out2_len not 85;
 * the number with which sagebutton_verify refuses the first attestation, at 1; that of the second, at 2; 11 at 0, the same
 * verdict on both. */
SAGEBUTTON_NODISCARD SAGEBUTTON_LENT(SAGEBUTTON_IN(2), SAGEBUTTON_IN(4), SAGEBUTTON_IN(6), SAGEBUTTON_IN(8),
                                     SAGEBUTTON_OUT(10), SAGEBUTTON_OUT(12))
uint64_t sagebutton_extract(uint32_t profile, const uint8_t *key, size_t key_len, const uint8_t *digest, size_t digest_len,
                            const uint8_t *first, size_t first_len, const uint8_t *second, size_t second_len,
                            uint8_t *SAGEBUTTON_RESTRICT out1, size_t out1_len, uint8_t *SAGEBUTTON_RESTRICT out2, size_t out2_len);

/* What sagebutton_drill answers if it finds no number; both outputs then stay as they were. */
#define SAGEBUTTON_NONE (UINT64_C(1) << 32)

/* Whether a drill found no number: 1 or 0. Of a refused one it is 0. Ask this before you take the value: that of a drill which found
 * none is 0, and 0 is a number that can be found. It looks at the refusal and bits 32 to 47 alone. */
SAGEBUTTON_NODISCARD static inline int sagebutton_is_none(uint64_t drilled) { return drilled >> 32 == 1; }

/* The drill, from the text of a list with one code: tries keys, as big-endian numbers from 0 upward, at most bound of them, the
 * listed key itself neither tried nor counted, for the first whose one-node tree has the listed key's digest under
 * SAGEBUTTON_DRILL. Then sagebutton_extract is given two attestations for that key, its absence under the list and its presence
 * under the other tree, and writes their node records, in that order, exactly 85 octets each. Answers the number, or
 * SAGEBUTTON_NONE. docs/DRILL.md says what to make of it.
 * Refuses, in this order: 1 at 0, out1_len or out2_len not 85; what sagebutton_read_list refuses the text with, with room for every
 * list; 16 at 2, more than one code. It takes some 64,000 octets of stack. */
SAGEBUTTON_NODISCARD SAGEBUTTON_LENT(SAGEBUTTON_IN(1), SAGEBUTTON_OUT(4), SAGEBUTTON_OUT(6))
uint64_t sagebutton_drill(const uint8_t *text, size_t text_len, uint32_t bound,
                          uint8_t *SAGEBUTTON_RESTRICT out1, size_t out1_len, uint8_t *SAGEBUTTON_RESTRICT out2, size_t out2_len);

#ifdef __cplusplus
}
#endif

#endif
