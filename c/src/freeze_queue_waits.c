/* The waits and the pool: the bodies that the headers have, as calls of the library. Nothing of it is proved. */
#define _POSIX_C_SOURCE 200809L
#define FREEZE_QUEUE_LIBRARY
#include "freeze_queue_pool.h"
