/*
 * The one session of a plain handler, over its standard streams. All programs of the handler use it, one call at a time: where one waits for a key, the
 * others wait for it. With the end of the handler's program it is over, so that the daemon sees the handler's end; what runs on gets ECONNRESET.
 */
#ifndef HANDLER_H
#define HANDLER_H

#include "../c/reqkey.h"

#include <stdbool.h>

/* Takes the streams of this process and assumes the authority over this key: 0, or a negative error of reqkey.h. Standard input is empty from then on. */
int handler_begin(int32_t key);

bool is_handler(void);

/* The key whose authority is assumed. */
int32_t handler_key(void);
void handler_assumes(int32_t key);

/* Waits for the session; NULL and ECONNRESET if it is over. */
struct reqkey *handler_take(void);
void handler_give(void);

/* Ends the session, when nobody has it. */
void handler_end(void);

#endif
