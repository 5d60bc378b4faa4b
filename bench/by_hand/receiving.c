/* How a receive buffer begins. */
#include "framing.h"

Receiver receiver_of(const Buffer *stream, size_t step)
{
    Receiver receiver = {.stream = stream->bytes, .left = stream->len, .step = step};
    receiver.room = 2 * step + 2 * READER_STEP;
    receiver.bytes = malloc(receiver.room + PAST_END);
    return receiver;
}
