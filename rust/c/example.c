/* Expands the example of README.md from C and holds every byte to what it must be, written here by hand. */

#include "argilosco.h"

#include <stdio.h>
#include <string.h>

static const uint8_t passes[36] = {
    'P', 0, 0x2c, 0x01, 0xe8, 0x03, 0, 0, 0xe8, 0x03, 0, 0, /* cost 300, period 1000, finish 1000 */
    'P', 1, 0x64, 0x00, 0xf4, 0x01, 0, 0, 0xf4, 0x01, 0, 0, /* cost 100, period 500, finish 500 */
    'F', 0, 1, 0, 0x32, 0x00, 0, 0, 0, 0, 0, 0,             /* latency 50 */
};

static const uint8_t jobs[48] = {
    'J', 0, 0x2c, 0x01, 0x00, 0x00, 0xe8, 0x03, 0, 0, 0, 0, /* cost 300, 0 to 1000 */
    'J', 1, 0x64, 0x00, 0x00, 0x00, 0xf4, 0x01, 0, 0, 0, 0, /* cost 100, 0 to 500 */
    'J', 2, 0x64, 0x00, 0xf4, 0x01, 0xe8, 0x03, 0, 0, 0, 0, /* cost 100, 500 to 1000 */
    'L', 0, 1, 0, 0x32, 0x00, 0, 0, 0, 0, 0, 0,             /* latency 50 */
};

/* Whether so many bytes at the place still are as they were filled. */
static int untouched(const uint8_t *at, size_t count)
{
    while (count > 0 && at[count - 1] == 0xa5)
        count--;
    return count == 0;
}

int main(void)
{
    uint8_t out[64];
    memset(out, 0xa5, sizeof out);

    argilosco_written answer = argilosco_expand(passes, sizeof passes, out, sizeof jobs - 1);
    if (answer.number != ARGILOSCO_ROOM || answer.written != 0 || !untouched(out, sizeof out)) {
        printf("C: number %u at a short output\n", (unsigned)answer.number);
        return 1;
    }
    answer = argilosco_expand(passes, sizeof passes, out, sizeof out);
    if (answer.number != ARGILOSCO_DONE || answer.written != sizeof jobs
        || memcmp(out, jobs, sizeof jobs) != 0 || !untouched(out + sizeof jobs, sizeof out - sizeof jobs)) {
        printf("C: number %u, %u bytes\n", (unsigned)answer.number, (unsigned)answer.written);
        return 1;
    }
    printf("C: the example expands as it must\n");
    return 0;
}
