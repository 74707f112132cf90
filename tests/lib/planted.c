// The number of the plant that is on, as PLANT says; 0 where none is.
#include <stdlib.h>

static unsigned number;

__attribute__((constructor)) static void begin(void) {
    const char *text = getenv("PLANT");
    number = text == NULL ? 0 : (unsigned)atoi(text);
}

unsigned planted_number(void) {
    return number;
}
