/* The time. */
#ifndef NOW_H
#define NOW_H

#include <stdint.h>

/* Milliseconds since some moment; they never run back. */
int64_t now_ms(void);

#endif
