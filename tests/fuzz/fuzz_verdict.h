#include <stddef.h>

// Whether this is all that `check --config` prints where it ends with this status. `keys` are those of a configuration, with a space behind
// each.
int is_verdict(const char *keys, int status, const char *said, size_t size);
