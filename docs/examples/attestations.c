/* Attestations under the list F, in C against include/sagebutton.h: for 3-4, which is listed, and for 3-39, which is not. */
#include <stdio.h>
#include <string.h>
#include "sagebutton.h"

static const char list[] = "codes\n5\n1-1\n2-7\n3-4\n3-40\nA-2\n";

/* what a box that has only the digest makes of an attestation */
static void judge(const char *what, const uint8_t key[20], const uint8_t digest[32], const uint8_t *att, size_t len)
{
    uint64_t verdict = sagebutton_verify(SAGEBUTTON_FULL, key, 20, digest, 32, att, len);
    switch (sagebutton_says(verdict)) {
    case SAGEBUTTON_SAYS_PRESENT:
        printf("%s: Present\n", what);
        break;
    case SAGEBUTTON_SAYS_ABSENT:
        printf("%s: Absent\n", what);
        break;
    case SAGEBUTTON_SAYS_NOTHING: /* neither is shown */
        printf("%s: refused %u %u\n", what, sagebutton_refusal(verdict), (unsigned)sagebutton_value(verdict));
        break;
    }
}

int main(void)
{
    static uint8_t keys[60000];
    uint8_t digest[32], key[20], att[586];
    static const char *const codes[] = { "3-4", "3-39" };

    uint64_t read = sagebutton_read_list((const uint8_t *)list, sizeof list - 1, keys, sizeof keys);
    size_t keys_len = 20 * (size_t)sagebutton_value(read);
    if (sagebutton_refusal(read) || sagebutton_refusal(sagebutton_digest(SAGEBUTTON_FULL, keys, keys_len, digest, 32)))
        return 1;

    for (int i = 0; i < 2; i++) {
        memset(key, 0, sizeof key);
        memcpy(key, codes[i], strlen(codes[i])); /* a code has at most 20 octets */
        uint64_t issued = sagebutton_attest(SAGEBUTTON_FULL, key, 20, keys, keys_len, att, sizeof att);
        if (sagebutton_refusal(issued))
            return 1;
        size_t len = sagebutton_value(issued);
        printf("%s: attestation of %u octets\n", codes[i], (unsigned)len);
        judge(codes[i], key, digest, att, len);
        att[len - 1] ^= 1;
        judge("with its last octet changed", key, digest, att, len);
        judge("with its last octet missing", key, digest, att, len - 1);
    }
    return 0;
}
