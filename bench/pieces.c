/*
 * pieces WHAT SIZE ROUNDS: so many times, feeds the pieces of a COMMAND cut at SIZE (WHAT is feed) or cuts
 * it (cut). For a program that counts instructions: boards/instructions.
 */
#include "culvertroost.h"

#include <stdlib.h>
#include <string.h>

static uint8_t information[CVR_MOST_INFORMATION], stream[4 * CVR_MOST_INFORMATION], out[CVR_MOST_INFORMATION];
static uint8_t memory[CVR_ASSEMBLY_SIZE];

int main(int count, char **words)
{
    const cvr_message_header message = {.message_type = CVR_MESSAGE_COMMAND, .transaction = 7};
    if (count != 4)
        return 2;
    const size_t size = strtoul(words[2], NULL, 10);
    const size_t length = size == 4096 ? 4048 : 4000;
    const int is_cut = strcmp(words[1], "cut") == 0;
    cvr_cut_answer cut = cvr_message_cut(message, size, information, length, stream, sizeof stream);
    for (long round = strtol(words[3], NULL, 10); round > 0; round--) {
        if (is_cut)
            cut = cvr_message_cut(message, size, information, length, stream, sizeof stream);
        for (const uint8_t *piece = stream; !is_cut && piece < stream + cut.length;) {
            uint32_t n;
            memcpy(&n, piece + 4, 4);
            if (cvr_receive(memory, sizeof memory, piece, n, out, sizeof out).refusal.number != 0)
                return 1;
            piece += n;
        }
    }
    return cut.refusal.number != 0;
}
