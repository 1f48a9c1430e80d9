/* Refuses one growth of memory: the call of malloc or realloc whose number, from 1, is in REFUSE, in the process that was started with it. It is loaded
   before the C library, and writes a byte to the file REFUSED where it refused. Children of the process are left alone. */
#include <fcntl.h>
#include <stddef.h>
#include <stdlib.h>
#include <unistd.h>

extern void *__libc_malloc(size_t size);
extern void *__libc_realloc(void *block, size_t size);

static unsigned long calls, wanted;
static const char *mark;

__attribute__((constructor)) static void begin(void) {
    const char *number = getenv("REFUSE");
    mark = getenv("REFUSED");
    calls = 0;
    wanted = number != NULL ? strtoul(number, NULL, 10) : 0;
    unsetenv("LD_PRELOAD");
}

static int refuses(void) {
    if (wanted == 0 || __atomic_add_fetch(&calls, 1, __ATOMIC_RELAXED) != wanted) {
        return 0;
    }
    int file = mark != NULL ? open(mark, O_WRONLY | O_CREAT | O_TRUNC, 0600) : -1;
    if (file >= 0) {
        (void)!write(file, "1", 1);
        close(file);
    }
    return 1;
}

void *malloc(size_t size) {
    return refuses() ? NULL : __libc_malloc(size);
}

void *realloc(void *block, size_t size) {
    return refuses() ? NULL : __libc_realloc(block, size);
}
