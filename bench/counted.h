/* COUNTED(name, what): under callgrind (--collect-atstart=no) the instructions of `what` are dumped under that name; elsewhere it is just done. */

#if __has_include(<valgrind/callgrind.h>)
#include <valgrind/callgrind.h>
#else
#define CALLGRIND_TOGGLE_COLLECT
#define CALLGRIND_DUMP_STATS_AT(name)
#endif
#define COUNTED(name, what)            \
    do {                               \
        CALLGRIND_TOGGLE_COLLECT;      \
        what;                          \
        CALLGRIND_TOGGLE_COLLECT;      \
        CALLGRIND_DUMP_STATS_AT(name); \
    } while (0)
