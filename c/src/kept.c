#include "kept.h"

#include <stdbool.h>
#include <string.h>

enum { HEADER = 40 }; /* the bytes that name a message: its job, sender, kind, slot and number (docs/FORMATS.md) */

static bool is_waiting(const struct gasnetl_kept *kept, const uint8_t *bytes, size_t length) {
    for (unsigned i = 0; i < kept->count; i++) {
        const struct gasnetl_kept_datagram *one = &kept->of[(kept->first + i) % GASNETL_KEPT];
        if (one->length == length && !memcmp(one->bytes, bytes, length < HEADER ? length : HEADER))
            return true;
    }
    return false;
}

void gasnetl_keep(struct gasnetl_kept *kept, const uint8_t *bytes, size_t length) {
    if (is_waiting(kept, bytes, length))
        return;
    if (kept->count == GASNETL_KEPT) {
        kept->dropped++;
        return;
    }
    struct gasnetl_kept_datagram *one = &kept->of[(kept->first + kept->count++) % GASNETL_KEPT];
    one->length = length;
    memcpy(one->bytes, bytes, length);
    kept->kept++;
}

const uint8_t *gasnetl_kept_take(struct gasnetl_kept *kept, size_t *length) {
    if (!kept->count)
        return NULL;
    const struct gasnetl_kept_datagram *one = &kept->of[kept->first];
    kept->first = (kept->first + 1) % GASNETL_KEPT;
    kept->count--;
    *length = one->length;
    return one->bytes;
}
