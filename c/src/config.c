#include "config.h"

#include <ctype.h>
#include <errno.h>
#include <inttypes.h>
#include <stdio.h>
#include <stdlib.h>
#include <string.h>

#include "gasnet_c.h"

enum { MICROSECONDS = 1000, SECONDS = 1000000 };
enum { LEAST_MTU = 576, MOST_MTU = 65536 }; /* IPv4 hosts take packets of 576 bytes (RFC 791); a loopback has 65,536 */

bool gasnetl_config_number(const char *name, uint64_t least, uint64_t most, uint64_t other, uint64_t *value) {
    const char *text = getenv(name);
    *value = other;
    if (!text)
        return true;
    char *end;
    errno = 0;
    uint64_t read = strtoull(text, &end, 10);
    if (!errno && isdigit((unsigned char)*text) && !*end && read >= least && read <= most) {
        *value = read;
        return true;
    }
    fprintf(stderr, "gasnet: %s is '%s': set it to a number from %" PRIu64 " to %" PRIu64 ", or unset it\n", name, text,
            least, most);
    return false;
}

/* How many bytes a suffix stands for; 0 for none that is known. */
static uint64_t scale(const char *suffix) {
    static const char letters[] = "KMGT";
    if (!*suffix)
        return 1;
    for (int i = 0; letters[i]; i++)
        if (toupper((unsigned char)suffix[0]) == letters[i] && (!suffix[1] || toupper((unsigned char)suffix[1]) == 'B'))
            return (uint64_t)1 << (10 * (i + 1));
    return 0;
}

static bool read_size(const char *name, uint64_t *bytes) {
    const char *text = getenv(name);
    *bytes = 0;
    if (!text)
        return true;
    char *end;
    errno = 0;
    uint64_t read = strtoull(text, &end, 10);
    uint64_t unit = scale(end);
    if (!errno && isdigit((unsigned char)*text) && unit && read <= ((uint64_t)1 << 40) / unit && read) {
        *bytes = read * unit;
        return true;
    }
    fprintf(stderr, "gasnet: %s is '%s': set it to a size as 64M or 2G, up to 1024G, or unset it\n", name, text);
    return false;
}

static bool read_percent(const char *name, unsigned *percent) {
    uint64_t value;
    if (!gasnetl_config_number(name, 0, 100, 0, &value))
        return false;
    *percent = (unsigned)value;
    return true;
}

static bool read_time(const char *name, uint64_t most, uint64_t other, uint64_t unit, uint64_t *time) {
    if (!gasnetl_config_number(name, 0, most, other, time))
        return false;
    *time *= unit;
    return true;
}

static bool read_spin(int *spin) {
    uint64_t value;
    if (!gasnetl_config_number("GASNET_SPIN", 0, 1000000, 1000001, &value))
        return false;
    *spin = value > 1000000 ? -1 : (int)value;
    return true;
}

/* What decides how requests go: their credits, their size, and when they go again. */
static bool read_sending(struct gasnetl_config *config) {
    uint64_t credits, mtu;
    if (!read_time("GASNET_RESEND", 60000, 2000, MICROSECONDS, &config->resend) ||
        !gasnetl_config_number("GASNET_CREDITS", 1, GASNET_C_MAX_CREDITS, GASNET_C_MAX_CREDITS, &credits) ||
        !gasnetl_config_number("GASNET_MTU", LEAST_MTU, MOST_MTU, 0, &mtu))
        return false;
    if (!config->resend)
        config->resend = 1;
    config->credits = (unsigned)credits;
    config->mtu = (uint32_t)mtu;
    return true;
}

static bool read_progress(bool *has_thread) {
    const char *text = getenv("GASNET_PROGRESS");
    *has_thread = !text || !strcmp(text, "thread");
    if (*has_thread || !strcmp(text, "poll"))
        return true;
    fprintf(stderr, "gasnet: GASNET_PROGRESS is '%s': set it to 'thread' or to 'poll', or unset it\n", text);
    return false;
}

bool gasnetl_config_read(struct gasnetl_config *config) {
    config->tells_counts = getenv("GASNET_COUNTS") != NULL;
    return read_sending(config) && read_progress(&config->has_thread) && read_percent("GASNET_DROP", &config->drop) &&
           read_percent("GASNET_TWICE", &config->twice) && read_percent("GASNET_SWAP", &config->swap) &&
           gasnetl_config_number("GASNET_SEED", 0, UINT64_MAX, 1, &config->seed) &&
           read_time("GASNET_PEER_TIMEOUT", 1000000, 300, SECONDS, &config->peer_timeout) &&
           read_time("GASNET_EXIT_TIMEOUT", 1000000, 20, SECONDS, &config->exit_timeout) &&
           read_time("GASNET_END_TIMEOUT", 1000000, 1000, MICROSECONDS, &config->end_timeout) &&
           read_size("GASNET_MAX_SEGSIZE", &config->max_segment) && read_spin(&config->spin);
}
