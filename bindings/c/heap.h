/* The heap that the library gets in these tests: its growths are counted, and one of them can be refused. The program is linked with
 * -Wl,--wrap=malloc,--wrap=realloc,--wrap=free, and what it allocates by itself is not counted. */
#ifndef HEAP_H
#define HEAP_H

#include <stddef.h>

/* The answer of a command for which memory was refused, and the one where it was refused for the bytes of the DVI file. */
#define MEMORY_LINE ": refused 1 OutOfMemory\n"
#define DEVICE_LINE ": refused 18 Device\n"

/* Begins to count from 0. The growth of this number is refused, from 1; none for 0. */
void heap_begin(size_t refused);

/* Counts what comes, or ends to do so. COUNTED makes a call of the library, and counts what it does. */
void heap_count(int counts);
#define COUNTED(call) __extension__ ({ heap_count(1); uint32_t counted_status = (call); heap_count(0); counted_status; })

/* How many growths there were since the beginning. */
size_t heap_growths(void);

/* How many blocks of the library are live. */
long heap_live(void);

#endif
