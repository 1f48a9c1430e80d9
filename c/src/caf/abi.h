/* The types and calls of gfortran's coarray interface, as gfortran 12 emits them with -fcoarray=lib.
 *
 * An array is handed over by its descriptor. A coarray is named by a token, which this library makes at the
 * registration. */
#ifndef CAF_ABI_H
#define CAF_ABI_H

#include <stdbool.h>
#include <stddef.h>
#include <stdint.h>

enum { CAF_RANKS = 15 };

/* The types of elements, as a descriptor has them. */
enum {
    CAF_INTEGER = 1,
    CAF_LOGICAL = 2,
    CAF_REAL = 3,
    CAF_COMPLEX = 4,
    CAF_DERIVED = 5,
    CAF_CHARACTER = 6,
    CAF_VOID = 10
};

/* The bounds of a dimension. The stride counts in spans. */
struct caf_bounds {
    ptrdiff_t stride, lower, upper;
};

/* An array descriptor. Only the first `rank` entries of dim exist. Never copy one as a whole. */
struct caf_descriptor {
    void *base;
    size_t offset;
    struct {
        size_t elem_len;
        int32_t version;
        int8_t rank, type;
        int16_t attribute;
    } dtype;
    ptrdiff_t span; /* bytes between neighbours of stride 1 */
    struct caf_bounds dim[CAF_RANKS];
};

/* What is registered. */
enum caf_registration {
    CAF_STATIC,
    CAF_ALLOCATABLE,
    CAF_LOCK_STATIC,
    CAF_LOCK_ALLOCATABLE,
    CAF_CRITICAL,
    CAF_EVENT_STATIC,
    CAF_EVENT_ALLOCATABLE,
    CAF_COMPONENT_NAMED, /* a component that isn't allocated yet */
    CAF_COMPONENT        /* a component that is allocated now, on this image alone */
};

/* A subscript of a dimension: a vector of nvec indexes, or a triplet where nvec is 0. */
struct caf_subscript {
    size_t nvec;
    union {
        struct {
            void *vector;
            int kind;
        } v;
        struct {
            ptrdiff_t lower, upper, stride;
        } triplet;
    } u;
};

enum caf_reference_type { CAF_REFERS_COMPONENT, CAF_REFERS_ARRAY, CAF_REFERS_STATIC_ARRAY };

enum caf_reference_mode {
    CAF_MODE_NONE,
    CAF_MODE_VECTOR,
    CAF_MODE_FULL,
    CAF_MODE_RANGE,
    CAF_MODE_SINGLE,
    CAF_MODE_OPEN_END,
    CAF_MODE_OPEN_START
};

/* One part of a reference such as %part(2:5)%x. */
struct caf_reference {
    struct caf_reference *next;
    int type;
    size_t item_size;
    union {
        struct {
            ptrdiff_t offset,
                token_offset; /* token_offset is 0 where the component is neither allocatable nor a pointer */
        } component;
        struct {
            unsigned char mode[CAF_RANKS];
            int static_array_type;
            union {
                struct {
                    ptrdiff_t start, end, stride;
                } s;
                struct {
                    void *vector;
                    size_t nvec;
                    int kind;
                } v;
            } dim[CAF_RANKS];
        } array;
    } u;
};

/* Values of stat=, as ISO_FORTRAN_ENV of gfortran 12 has them. */
enum {
    CAF_STAT_UNLOCKED = 0,
    CAF_STAT_LOCKED = 1,
    CAF_STAT_LOCKED_OTHER_IMAGE = 2,
    CAF_STAT_DUPLICATE = 3,
    CAF_STAT_ALLOCATION = 5014,
    CAF_STAT_STOPPED_IMAGE = 6000,
    CAF_STAT_FAILED_IMAGE = 6001,
    CAF_STAT_UNLOCKED_FAILED_IMAGE = 6002
};

/* What an atomic operation does. */
enum { CAF_ATOMIC_ADD = 1, CAF_ATOMIC_AND = 2, CAF_ATOMIC_OR = 3, CAF_ATOMIC_XOR = 4 };

/* How the operation of co_reduce is called. */
enum { CAF_BY_REFERENCE = 1, CAF_HIDDEN_LENGTH = 2, CAF_ARGUMENT_VALUE = 4, CAF_ARGUMENT_DESCRIPTOR = 8 };

struct caf_token;
struct caf_team;

/* Every call below that has stat and errmsg: where an error comes, stat is set and errmsg filled if stat isn't null;
 * else the error is told on standard error, and all images end. */
#define CAF_ERRORS int *stat, char *errmsg, size_t errmsg_len

/* ---- Start and end. */

void _gfortran_caf_init(int *argc, char ***argv);
void _gfortran_caf_finalize(void);
_Noreturn void _gfortran_caf_stop_numeric(int code, bool quiet);
_Noreturn void _gfortran_caf_stop_str(const char *text, size_t length, bool quiet);
_Noreturn void _gfortran_caf_error_stop(int code, bool quiet);
_Noreturn void _gfortran_caf_error_stop_str(const char *text, size_t length, bool quiet);
_Noreturn void _gfortran_caf_fail_image(void);
void _gfortran_caf_random_init(bool repeatable, bool image_distinct);

/* ---- Images. */

int _gfortran_caf_this_image(int distance);
int _gfortran_caf_num_images(int distance, int failed);
int _gfortran_caf_image_status(int image, int team);
void _gfortran_caf_failed_images(struct caf_descriptor *array, struct caf_team *team, const int *kind);
void _gfortran_caf_stopped_images(struct caf_descriptor *array, struct caf_team *team, const int *kind);

/* ---- Teams. */

void _gfortran_caf_form_team(int number, struct caf_team **team, int index);
void _gfortran_caf_change_team(struct caf_team **team, int index);
void _gfortran_caf_end_team(struct caf_team **team);
void _gfortran_caf_sync_team(struct caf_team **team, int index);
int _gfortran_caf_team_number(struct caf_team *team);
struct caf_team *_gfortran_caf_get_team(const int *level);

/* ---- Registration. */

void _gfortran_caf_register(size_t size, int type, struct caf_token **token, struct caf_descriptor *array, CAF_ERRORS);
void _gfortran_caf_deregister(struct caf_token **token, int type, CAF_ERRORS);

/* ---- Transfers. */

void _gfortran_caf_get(struct caf_token *token, size_t offset, int image, struct caf_descriptor *source,
                       struct caf_subscript *subscripts, struct caf_descriptor *target, int source_kind,
                       int target_kind, bool may_overlap, int *stat);
void _gfortran_caf_send(struct caf_token *token, size_t offset, int image, struct caf_descriptor *target,
                        struct caf_subscript *subscripts, struct caf_descriptor *source, int target_kind,
                        int source_kind, bool may_overlap, int *stat, struct caf_team **team);
void _gfortran_caf_sendget(struct caf_token *target_token, size_t target_offset, int target_image,
                           struct caf_descriptor *target, struct caf_subscript *target_subscripts,
                           struct caf_token *source_token, size_t source_offset, int source_image,
                           struct caf_descriptor *source, struct caf_subscript *source_subscripts, int target_kind,
                           int source_kind, bool may_overlap, int *stat);
void _gfortran_caf_get_by_ref(struct caf_token *token, int image, struct caf_descriptor *target,
                              struct caf_reference *references, int target_kind, int source_kind, bool may_overlap,
                              bool may_allocate, int *stat, int source_type);
void _gfortran_caf_send_by_ref(struct caf_token *token, int image, struct caf_descriptor *source,
                               struct caf_reference *references, int target_kind, int source_kind, bool may_overlap,
                               bool may_allocate, int *stat, int target_type);
void _gfortran_caf_sendget_by_ref(struct caf_token *target_token, int target_image,
                                  struct caf_reference *target_references, struct caf_token *source_token,
                                  int source_image, struct caf_reference *source_references, int target_kind,
                                  int source_kind, bool may_overlap, int *target_stat, int *source_stat,
                                  int target_type, int source_type);
int _gfortran_caf_is_present(struct caf_token *token, int image, struct caf_reference *references);

/* ---- Synchronisation. */

void _gfortran_caf_sync_all(CAF_ERRORS);
void _gfortran_caf_sync_images(int count, int *images, CAF_ERRORS);
void _gfortran_caf_sync_memory(CAF_ERRORS);

/* ---- Locks, events, atomics. */

void _gfortran_caf_lock(struct caf_token *token, size_t index, int image, int *acquired, CAF_ERRORS);
void _gfortran_caf_unlock(struct caf_token *token, size_t index, int image, CAF_ERRORS);
void _gfortran_caf_event_post(struct caf_token *token, size_t index, int image, CAF_ERRORS);
void _gfortran_caf_event_wait(struct caf_token *token, size_t index, int until, CAF_ERRORS);
void _gfortran_caf_event_query(struct caf_token *token, size_t index, int image, int *count, int *stat);
void _gfortran_caf_atomic_define(struct caf_token *token, size_t offset, int image, void *value, int *stat, int type,
                                 int kind);
void _gfortran_caf_atomic_ref(struct caf_token *token, size_t offset, int image, void *value, int *stat, int type,
                              int kind);
void _gfortran_caf_atomic_cas(struct caf_token *token, size_t offset, int image, void *old, void *compare,
                              void *new_value, int *stat, int type, int kind);
void _gfortran_caf_atomic_op(int operation, struct caf_token *token, size_t offset, int image, void *value, void *old,
                             int *stat, int type, int kind);

/* ---- Collectives. */

void _gfortran_caf_co_broadcast(struct caf_descriptor *array, int source_image, CAF_ERRORS);
void _gfortran_caf_co_sum(struct caf_descriptor *array, int result_image, CAF_ERRORS);
void _gfortran_caf_co_min(struct caf_descriptor *array, int result_image, int *stat, char *errmsg, int length,
                          size_t errmsg_len);
void _gfortran_caf_co_max(struct caf_descriptor *array, int result_image, int *stat, char *errmsg, int length,
                          size_t errmsg_len);
void _gfortran_caf_co_reduce(struct caf_descriptor *array, void *(*operation)(void *, void *), int flags,
                             int result_image, int *stat, char *errmsg, int length, size_t errmsg_len);

#endif
