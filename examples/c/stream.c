/* Takes whole messages out of standard input, however its bytes are cut; prints each, or the number of its refusal. */
#include <stdio.h>

#include "windosprio.h"

int main(void) {
    static uint8_t buffer[WINDOSPRIO_MESSAGE_BYTES];
    uint64_t state[WINDOSPRIO_STREAM_WORDS];
    uint8_t bytes[7];
    size_t count;

    windosprio_stream_start(state);
    while ((count = fread(bytes, 1, sizeof bytes, stdin)) > 0) {
        const uint8_t *rest = bytes;
        for (;;) {
            size_t taken, message_bytes, place;
            uint32_t number = windosprio_stream_feed(state, buffer, sizeof buffer, rest, count, &taken,
                                                     &message_bytes, &place);
            rest += taken;
            count -= taken;
            if (number != WINDOSPRIO_ACCEPTED)
                printf("refused: %u\n", (unsigned)number);
            else if (message_bytes > 0)
                printf("message: %.*s\n", (int)message_bytes, (const char *)buffer);
            else
                break;
        }
    }
    return ferror(stdin) ? 1 : 0;
}
