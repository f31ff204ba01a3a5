/*
 * The program "list" in plain C, over the hand-written side: reads a bundle
 * from standard input and prints what panel 0 does with it.
 */
#include "../reference.h"

#include <inttypes.h>
#include <stdio.h>

enum { BUNDLE_MAX = 65535 };

static void print_log(const uint8_t *output, size_t count)
{
    static const char digits[] = "0123456789abcdef";

    for (size_t i = 0; i < count; i++) {
        LogRecord r = c_log_record((Slice){output, LOG_RECORD * count}, i);
        char payload[2 * PAYLOAD_MAX + 1];
        size_t n = 0;
        for (size_t k = 0; k < r.length; k++) {
            payload[n++] = digits[r.payload[k] >> 4];
            payload[n++] = digits[r.payload[k] & 15];
        }
        payload[n] = 0;
        printf("hand %u %" PRIu64 " %s\n", r.source, r.deadline, n > 0 ? payload : "-");
    }
}

int main(void)
{
    static uint8_t input[BUNDLE_MAX + 1];
    static uint8_t output[OUTPUT_MIN];
    static Record panel;
    size_t size = fread(input, 1, sizeof input, stdin);

    if (size > BUNDLE_MAX) {
        puts("long");
        return 0;
    }

    c_fresh(&panel, 0);
    size_t place = 0;
    for (unsigned frame = 1; size - place >= 2; frame++) {
        size_t length = (size_t)input[place] << 8 | input[place + 1];
        if (size - place - 2 < length)
            break;
        Written written;
        uint8_t number = c_receive(&panel, (Slice){input + place + 2, length},
                                   (Buffer){output, sizeof output}, &written);
        if (number == 0)
            printf("frame %u taken\n", frame);
        else
            printf("frame %u %u\n", frame, number);
        print_log(output, written.count);
        place += 2 + length;
    }
    puts(place == size ? "end" : "broken");
    return 0;
}
