/* The requests of ComEx's non-blocking calls: numbers that lead to handles of gasnet.h. As many as the table has may be
 * open; a further one waits for the oldest. */
#ifndef COMEXG_REQUESTS_H
#define COMEXG_REQUESTS_H

#include "state.h"

/* A request for this handle. */
comex_request_t comexg_request(gasnet_handle_t handle);

/* Waits for all that are open. */
void comexg_requests_wait(void);

#endif
