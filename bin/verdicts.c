/* What the header says of a verdict, tried on the attestation for 3-4 under the list of 3-4 alone, and of a drill that finds no number.
 * Compiled and run by bin/faces. */
#include <stdio.h>
#include "sagebutton.h"

static const uint8_t listed[20] = "3-4", other[20] = "3-5";
static uint8_t digest[32], att[586];
static int failures;

static void check(const char *what, int holds)
{
    if (!holds) {
        printf("verdicts: not so: %s\n", what);
        failures++;
    }
}

static uint64_t judged(const uint8_t key[20], size_t len)
{
    return sagebutton_verify(SAGEBUTTON_FULL, key, 20, digest, 32, att, len);
}

/* a refusal is no verdict, not even for a caller who kept it in an int */
static void check_refused(const char *what, uint64_t result)
{
    int cut = (int)result;
    check(what, sagebutton_refusal(result) && sagebutton_says(result) == SAGEBUTTON_SAYS_NOTHING);
    check(what, !sagebutton_is_present(result) && !sagebutton_is_absent(result));
    check(what, cut != SAGEBUTTON_PRESENT && cut != SAGEBUTTON_ABSENT);
}

/* accepted, and says this */
static void check_says(const char *what, uint64_t result, enum sagebutton_says says)
{
    check(what, !sagebutton_refusal(result) && sagebutton_says(result) == says);
    check(what, sagebutton_is_present(result) == (says == SAGEBUTTON_SAYS_PRESENT));
    check(what, sagebutton_is_absent(result) == (says == SAGEBUTTON_SAYS_ABSENT));
}

/* bits 32 to 47 change no verdict, a refusal's number does; no other number is a verdict */
static void check_bits(void)
{
    const uint64_t between = UINT64_C(0xffff) << 32, refused = UINT64_C(1) << 48;
    check_says("bits 32 to 47 and Present", between | SAGEBUTTON_PRESENT, SAGEBUTTON_SAYS_PRESENT);
    check_says("bits 32 to 47 and Absent", between | SAGEBUTTON_ABSENT, SAGEBUTTON_SAYS_ABSENT);
    check_says("no verdict's number", 1, SAGEBUTTON_SAYS_NOTHING);
    check("refused, not Present", sagebutton_says(refused | SAGEBUTTON_PRESENT) == SAGEBUTTON_SAYS_NOTHING);
    check("refused, not Absent", sagebutton_says(refused | SAGEBUTTON_ABSENT) == SAGEBUTTON_SAYS_NOTHING);
    check("refused, not none", !sagebutton_is_none(refused | SAGEBUTTON_NONE));
    check("the number 0, not none", !sagebutton_is_none(0));
}

/* with 3-4 the number is 16,401: so many tries find none, one more finds it */
static void check_drill(void)
{
    static const char text[] = "codes\n1\n3-4\n";
    uint8_t out1[85], out2[85];
    uint64_t none = sagebutton_drill((const uint8_t *)text, sizeof text - 1, 16401, out1, 85, out2, 85);
    uint64_t found = sagebutton_drill((const uint8_t *)text, sizeof text - 1, 16402, out1, 85, out2, 85);
    uint64_t refused = sagebutton_drill((const uint8_t *)text, sizeof text - 2, 16402, out1, 85, out2, 85);
    check("none is found", none == SAGEBUTTON_NONE && sagebutton_is_none(none));
    check("16,401 is found", !sagebutton_is_none(found) && !sagebutton_refusal(found) && sagebutton_value(found) == 16401);
    check("a refused drill", !sagebutton_is_none(refused) && sagebutton_refusal(refused) == 14);
}

int main(void)
{
    uint64_t digested = sagebutton_digest(SAGEBUTTON_FULL, listed, 20, digest, sizeof digest);
    uint64_t issued = sagebutton_attest(SAGEBUTTON_FULL, listed, 20, listed, 20, att, sizeof att);
    size_t len = sagebutton_value(issued);
    check("digested and issued", !sagebutton_refusal(digested) && !sagebutton_refusal(issued));
    check_says("3-4 is Present", judged(listed, len), SAGEBUTTON_SAYS_PRESENT);
    check_says("3-5 is Absent", judged(other, len), SAGEBUTTON_SAYS_ABSENT);
    /* each place from 0 on is that of some refusal */
    for (size_t cut = 0; cut < len; cut++) {
        check("an attestation that ends early is refused at its end", sagebutton_value(judged(listed, cut)) == cut);
        check_refused("an attestation that ends early is refused", judged(listed, cut));
        att[cut] ^= 1;
        check_refused("an attestation with an octet changed is refused", judged(listed, len));
        att[cut] ^= 1;
    }
    check_bits();
    check_drill();
    return failures != 0;
}
