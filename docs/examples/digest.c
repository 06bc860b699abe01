/* A list on standard input to its digest, in C against include/sagebutton.h. */
#include <stdio.h>
#include "sagebutton.h"

int main(void)
{
    static uint8_t text[65536], keys[60000];
    uint8_t digest[32];
    size_t n = fread(text, 1, sizeof text, stdin);
    if (ferror(stdin)) {
        fprintf(stderr, "digest: standard input could not be read to its end\n");
        return 2;
    }

    uint64_t read = sagebutton_read_list(text, n, keys, sizeof keys);
    if (sagebutton_refusal(read)) {
        printf("refused %u %u\n", sagebutton_refusal(read), (unsigned)sagebutton_value(read));
        return 1;
    }
    uint64_t digested = sagebutton_digest(SAGEBUTTON_FULL, keys, 20 * (size_t)sagebutton_value(read), digest, sizeof digest);
    if (sagebutton_refusal(digested))
        return 2; /* never: what was read is always accepted */
    printf("digest %u ", (unsigned)sagebutton_value(digested));
    for (int i = 0; i < 32; i++)
        printf("%02x", digest[i]);
    printf("\n");
    return 0;
}
