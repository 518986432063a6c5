/* The second coder's listing, from document 01 alone: see second_listing.h. */
#include "second_listing.h"

#include "second_bundle.h"

#include <stdio.h>

/* "a longer input is answered ROOM before anything else is tested. It serves n up to 256 and L up to 24,576; a larger n or L is answered ROOM
 * where the reader tests ROOM." A reader that is lent L_SERVED bytes and the 8N numbers of N_SERVED answers so: N is a power of two as
 * N_SERVED is, so it is above it exactly when n is. */
static struct second_answer answer_of(const uint8_t *input, size_t length)
{
    static uint8_t file[L_SERVED];
    static uint32_t work[8 * N_SERVED];
    struct second_answer answer = {ROOM, 0};
    if (length <= INPUT_SERVED)
        answer = second_read(input, length, file, L_SERVED, work, 8 * N_SERVED);
    if (answer.status == OK)
        answer.place = 0;
    return answer;
}

/* The first line, and one for each entry of the table: position, body offset, overflow count. */
static char *put_listing(char *text, const uint8_t *bundle, size_t length)
{
    struct bundle_facts facts;
    struct bundle_entry entry;
    second_facts(bundle, length, &facts);
    text += sprintf(text, "k %zu n %zu length %zu held %zu blocks %zu\n", facts.k, facts.n, facts.length, facts.held, facts.blocks);
    for (size_t i = 0; i < facts.held; i++) {
        second_entry(bundle, length, i, &entry);
        text += sprintf(text, "%zu %zu %zu\n", entry.position, entry.offset, entry.count);
    }
    return text;
}

struct second_answer second_listing(const uint8_t *input, size_t length, char *text)
{
    const struct second_answer answer = answer_of(input, length);
    /* "Refusals 1, 3 and 11 print that line alone; 4, 8, 9 and 10 follow the listing." */
    if (answer.status != SHAPE && answer.status != ROOM && answer.status != FORM)
        text = put_listing(text, input, length);
    if (answer.status == OK)
        sprintf(text, "OK\n");
    else
        sprintf(text, "REFUSED %u %zu\n", (unsigned)answer.status, answer.place);
    return answer;
}
