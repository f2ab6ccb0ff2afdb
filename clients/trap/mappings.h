/*
 * What the caller itself may write (caller.h). /proc/PID/mem writes also where the program may not, as a debugger does; the kernel's own calls answer EFAULT
 * there.
 */
#ifndef MAPPINGS_H
#define MAPPINGS_H

#include <stdbool.h>
#include <stddef.h>
#include <stdint.h>

/*
 * False if one of these bytes is in a mapping that the program may not write. It is looked up to the first byte without a mapping, to which nothing is written.
 * The kernel is asked once a mapping (PROCMAP_QUERY in its Documentation/filesystems/proc.rst); before Linux 6.11, /proc/PID/maps is read up to the last one.
 */
bool mappings_may_be_written(uint64_t at, size_t length);

#endif
