// Callgrind's switch: what runs between the two calls is counted, and its sum written to a file under a name.
#include <valgrind/callgrind.h>

void counter_start(void)
{
    CALLGRIND_START_INSTRUMENTATION;
    CALLGRIND_ZERO_STATS;
}

void counter_stop(const char *name)
{
    CALLGRIND_DUMP_STATS_AT(name);
    CALLGRIND_STOP_INSTRUMENTATION;
}
