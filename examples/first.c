/* One terminal and the sequencer: a message is submitted, numbered and taken. */
#include "warghytes.h"
#include <stdio.h>

int main(void)
{
    struct warghytes_sequencer sequencer = { 0 };
    struct warghytes_member member = { 0 };
    uint8_t request[WARGHYTES_PACKET], broadcast[WARGHYTES_PACKET], out[WARGHYTES_PACKET];
    warghytes_sequencer_open(&sequencer, 1, 7, 0);
    warghytes_member_open(&member, 1, 0, 7, 0);

    struct warghytes_told told = warghytes_member_submit(&member, (const uint8_t *)"saw", 3, request, sizeof request);
    if (told.code != WARGHYTES_SENT)
        return 1;
    told = warghytes_sequencer_receive(&sequencer, request, told.written, broadcast, sizeof broadcast);
    if (told.code != WARGHYTES_NUMBERED)
        return 1;
    told = warghytes_member_receive(&member, broadcast, told.written, out, sizeof out);
    if (told.code != WARGHYTES_KEPT)
        return 1;
    told = warghytes_member_take(&member, out, sizeof out);
    if (told.code != WARGHYTES_TOOK)
        return 1;
    printf("number %u from terminal %u: %.*s\n", told.first, told.second, (int)told.written, (const char *)out);
    return 0;
}
