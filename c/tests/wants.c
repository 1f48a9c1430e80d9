/* The first keys for messages can't be made, as where there is no memory for them: the nodes greet each other again,
 * and all goes as it does without. It is linked with gasnetl_derive wrapped. */
#define GASNET_SEQ 1
#include "../src/aead.h"
#include "check.h"

enum { REFUSED = 3, LENGTH = 1 << 16 };

static int refused;

bool __real_gasnetl_derive(struct gasnetl_span secret, struct gasnetl_span salt, struct gasnetl_span info,
                           uint8_t *bytes, size_t length);
bool __wrap_gasnetl_derive(struct gasnetl_span secret, struct gasnetl_span salt, struct gasnetl_span info,
                           uint8_t *bytes, size_t length);

bool __wrap_gasnetl_derive(struct gasnetl_span secret, struct gasnetl_span salt, struct gasnetl_span info,
                           uint8_t *bytes, size_t length) {
    static const char message[] = "gasnet message";
    if (refused < REFUSED && info.length > sizeof message && !memcmp(info.bytes, message, sizeof message - 1)) {
        refused++;
        return false;
    }
    return __real_gasnetl_derive(secret, salt, info, bytes, length);
}

int main(int argc, char **argv) {
    static unsigned char from[LENGTH], to[LENGTH];
    start(&argc, &argv, NULL, 0, LENGTH);
    fill(from, LENGTH, me, 1);
    gasnet_put(next(), at(next(), 0), from, LENGTH);
    gasnet_get(to, next(), at(next(), 0), LENGTH);
    CHECK(is_filled(to, LENGTH, me, 1) && refused == REFUSED);
    barrier();
    gasnet_exit(0);
}
