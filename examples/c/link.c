/* A first program: opens a link, acts on a run of records, tells the voids kept. */
#include "curlywether.h"
#include <inttypes.h>
#include <stdio.h>

int main(void) {
    static uint8_t memory[CURLYWETHER_NEED(256)];
    static const uint8_t opening[] = {0x4F, 0x4C, 2, 1, 0, 0, 3, 0xE8, 0, 0, 0, 0, 0, 0, 0, 0, 0, 5};
    static const uint8_t orders[] = {
        0x4F, 0x42, 0, 0, 0, 0, 0, 10, 0, 0, 0, 5, 0, 0, /* OB 10, 5, 0 */
        0x4F, 0x42, 0, 0, 0, 0, 0, 12, 0, 0, 0, 2, 0, 0, /* OB 12, 2, 0 */
        0x4F, 0x43, 0, 0, 0, 0, 0, 14, 0, 3,             /* OC 14, 3 */
        0x4F, 0x53, 0, 0, 0, 0, 0, 11,                   /* OS 11 */
        0x4F, 0x42, 0, 0, 0, 0, 0, 9,  0, 0, 0, 1, 0, 0, /* OB 9, 1, 0: before the floor */
    };
    curlywether_tally tally = {0};
    uint64_t answers[7 * 8];
    curlywether_opened opened = curlywether_open(memory, sizeof memory, 256, opening, sizeof opening);
    printf("opened: code %" PRIu64 ", %zu bytes used\n", opened.code, opened.used);
    curlywether_ran ran = curlywether_run(memory, sizeof memory, &tally, orders, sizeof orders, answers, 7 * 8);
    printf("ran: code %" PRIu64 ", place %zu, %zu answered\n", ran.code, ran.place, ran.answered);
    for (size_t i = 0; i < ran.answered; i++) {
        const uint64_t *a = answers + 7 * i;
        printf("code %" PRIu64 " channel %" PRIu64 " line %" PRIu64 " start %" PRIu64 " finish %" PRIu64 " count %" PRIu64
               " dropped %" PRIu64 "\n",
               a[0], a[1], a[2], a[3], a[4], a[5], a[6]);
    }
    curlywether_told told = curlywether_tell(memory, sizeof memory);
    printf("kept: code %" PRIu64 ", %" PRIu64 " voids; bookings %" PRIu64 ", sweeps %" PRIu64 ", code 4 %" PRIu64 "\n", told.code, told.voids,
           tally.bookings, tally.sweeps, tally.code4);
    memory[100] ^= 1;
    printf("spoiled: code %" PRIu64 "\n", curlywether_tell(memory, sizeof memory).code);
    return 0;
}
