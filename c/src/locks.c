/* Handler-safe locks, and sections without interrupts. Handlers run in polls alone, so nothing interrupts a thread: a
 * lock is a mutex among the client's threads, and a section is a rule that is checked. */
#include <errno.h>
#include <time.h>

#include "errors.h"
#include "progress.h"
#include "threads.h"

static struct gasnetl_thread *self(void) { return &gasnetl_thread; }

static void *owner_of(const gasnet_hsl_t *hsl) { return __atomic_load_n(&hsl->owner, __ATOMIC_RELAXED); }

void gasnet_hsl_init(gasnet_hsl_t *hsl) {
    hsl->owner = NULL;
    hsl->below = NULL;
    if (pthread_mutex_init(&hsl->mutex, NULL))
        gasnetl_stop(GASNETL_BROKEN, "gasnet_hsl_init: the system has no mutex");
}

void gasnet_hsl_destroy(gasnet_hsl_t *hsl) {
    if (owner_of(hsl) || pthread_mutex_destroy(&hsl->mutex))
        gasnetl_stop(GASNETL_MISUSE, "gasnet_hsl_destroy: the lock is held");
}

static void took(gasnet_hsl_t *hsl) {
    __atomic_store_n(&hsl->owner, (void *)self(), __ATOMIC_RELAXED);
    hsl->below = self()->locks;
    self()->locks = hsl;
}

enum { LOOK_EACH = 100000000, SECOND = 1000000000 }; /* nanoseconds */

/* Waits for the lock so long that somebody may have asked where threads wait. */
static int wait_for_lock(gasnet_hsl_t *hsl) {
    struct timespec until;
    clock_gettime(CLOCK_MONOTONIC, &until);
    until.tv_nsec += LOOK_EACH;
    until.tv_sec += until.tv_nsec / SECOND;
    until.tv_nsec %= SECOND;
    return pthread_mutex_clocklock(&hsl->mutex, CLOCK_MONOTONIC, &until);
}

/* Takes the lock that another thread has. Answers an error's number; 0 where it took it. */
static int lock_later(gasnet_hsl_t *hsl) {
    struct gasnetl_stack stack = gasnetl_stacks_of_lock();
    int error;
    while ((error = wait_for_lock(hsl)) == ETIMEDOUT)
        gasnetl_stacks_look_at_lock(&stack);
    self()->stack.told = stack.told;
    return error;
}

void gasnet_hsl_lock(gasnet_hsl_t *hsl) {
    if (owner_of(hsl) == self())
        gasnetl_stop(GASNETL_MISUSE, "gasnet_hsl_lock: the thread holds the lock already");
    int error = pthread_mutex_trylock(&hsl->mutex);
    if (error == EBUSY)
        error = lock_later(hsl);
    if (error)
        gasnetl_stop(GASNETL_MISUSE, "gasnet_hsl_lock: this is no lock");
    took(hsl);
}

int gasnet_hsl_trylock(gasnet_hsl_t *hsl) {
    if (owner_of(hsl) == self())
        gasnetl_stop(GASNETL_MISUSE, "gasnet_hsl_trylock: the thread holds the lock already");
    if (pthread_mutex_trylock(&hsl->mutex))
        return GASNET_ERR_NOT_READY;
    took(hsl);
    return GASNET_OK;
}

void gasnet_hsl_unlock(gasnet_hsl_t *hsl) {
    if (owner_of(hsl) != self())
        gasnetl_stop(GASNETL_MISUSE, "gasnet_hsl_unlock: the thread doesn't hold the lock");
    if (self()->locks != hsl)
        gasnetl_stop(GASNETL_MISUSE, "gasnet_hsl_unlock: the thread took another lock later, and still holds it");
    self()->locks = hsl->below;
    __atomic_store_n(&hsl->owner, NULL, __ATOMIC_RELAXED);
    pthread_mutex_unlock(&hsl->mutex);
}

/* In a handler both are passed over, as the specification says. */
void gasnet_hold_interrupts(void) {
    if (self()->token)
        return;
    if (self()->sections++)
        gasnetl_stop(GASNETL_MISUSE, "gasnet_hold_interrupts: the thread holds them already");
}

void gasnet_resume_interrupts(void) {
    if (self()->token)
        return;
    if (!self()->sections)
        gasnetl_stop(GASNETL_MISUSE, "gasnet_resume_interrupts: the thread doesn't hold them");
    self()->sections--;
}
