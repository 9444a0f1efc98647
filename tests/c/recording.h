/* A heap that records what it gives, and looks at each call: see recording.c. */
#ifndef RECORDING_H
#define RECORDING_H

#include <stddef.h>

/* `refuse` is the number of the call to refuse, from 1 on, or 0 for none. The others are set by the heap. */
struct recording {
    unsigned long refuse;
    unsigned long calls;  /* that asked for memory */
    unsigned long blocks; /* that are not given back */
    size_t bytes;         /* in these blocks */
    size_t most;          /* that were in blocks at one time */
    unsigned long moved;
    const char *wrong;    /* what the library did that it may not, or NULL */
};

extern struct recording recorded;

#endif
