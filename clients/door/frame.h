/*
 * The frames that the door reads (docs/PROTOCOL.md): a client's HELLO, and the daemon's reply to it. They are read so that no byte behind them is: what
 * follows is another's.
 */
#ifndef FRAME_H
#define FRAME_H

#include <stdbool.h>
#include <stddef.h>
#include <stdint.h>

/* Bytes of the length before a body; of the bodies of HELLO, of Rings and of a refusal; and of the longest frame. */
enum { HEAD = 4, HELLO_BODY = 14, RINGS_BODY = 17, REFUSED_BODY = 2, LONGEST = HEAD + RINGS_BODY };

struct frame {
    size_t had;
    unsigned char bytes[LONGEST];
};

enum frame_kind { FRAME_CUT, FRAME_OTHER, FRAME_HELLO, FRAME_RINGS, FRAME_REFUSED };

/* What is there of a client's first frame: FRAME_HELLO once it is whole, FRAME_OTHER as soon as it can't be one. */
enum frame_kind frame_of_client(const struct frame *frame);

/* The same of a reply to HELLO: FRAME_RINGS, FRAME_REFUSED. */
enum frame_kind frame_of_daemon(const struct frame *frame);

/* How many bytes may be read next into a frame that is cut: at least one, and none that is not its own. */
size_t frame_lacks(const struct frame *frame);

/* Where these go. */
unsigned char *frame_end(struct frame *frame);

/* Who a whole HELLO is for. */
uint32_t hello_uid(const struct frame *hello);
uint32_t hello_gid(const struct frame *hello);

/* Writes the frame of a refusal with this error, and gives its length. */
size_t refusal(unsigned char *to, int error);

#endif
