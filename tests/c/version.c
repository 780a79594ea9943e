/* The archive is of this header: lemondarts_version returns the header's version. */
#include <stdio.h>

#include "lemondarts.h"

int main(void) {
    uint64_t version = lemondarts_version();
    if (version != LEMONDARTS_VERSION_NUMBER) {
        printf("wrong: the archive is %lu, the header %u\n", (unsigned long)version, LEMONDARTS_VERSION_NUMBER);
        return 1;
    }
    return 0;
}
