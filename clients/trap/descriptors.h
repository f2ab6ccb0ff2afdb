/* The descriptors of this process. */
#ifndef DESCRIPTORS_H
#define DESCRIPTORS_H

/* Lets this process have as many as it may: one for each connection, and for each process that is in a ring of its own. */
void descriptors_many(void);

/* Closes what this process has of its caller beyond the standard streams: all that execve(2) would leave open. Nothing of its own is. */
void descriptors_leave(void);

#endif
