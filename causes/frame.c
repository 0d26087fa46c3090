/* The program around the lines of C on a page. They set `refused` to what a call with the page's mistake returns, and `mended` to
 * what it returns without it. */
#include <loughrella.h>

#include <stdio.h>

/* what the lines find: a chain of one NO-OPERATION, main storage, 8 blocks, a unit record, room for the answer */
uint8_t chain[8] = {0x03, 0, 0, 0, 0, 0, 0, 1};
uint8_t storage[32], store[8 * 512], record[290], answers[8];

int main(void)
{
    uint32_t refused, mended;

    loughrella_record(record, 290, 1, 0); /* ready, may be written, no block has an alternate */
#include LINES
    printf("refused by %u, mended %u\n", (unsigned)LOUGHRELLA_CAUSE(refused), (unsigned)LOUGHRELLA_CAUSE(mended));
    return 0;
}
