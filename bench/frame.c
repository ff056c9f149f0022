/* Document 02's reader of frames in plain C, in place: what crates/column/src/frame.rt is measured beside. */
#include "frame.h"

uint8_t read_frame(const uint8_t *bytes, size_t size, struct frame *f) {
    size_t count = 0;
    for (size_t at = 0; at < size;) {
        size_t used = count == FRAME_PACKETS ? 0 : read_packet(bytes + at, size - at, &f->packets[count]);
        if (used == 0) {
            *f = (struct frame){0};
            return 12;
        }
        at += used;
        count++;
    }
    f->count = count;
    return 0;
}
