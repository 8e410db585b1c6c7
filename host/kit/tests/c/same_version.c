/* Refuses a library of another version than the header's. */
#include "rootmap.h"

#include <stdio.h>

int main(void)
{
    if (rootmap_version() != ROOTMAP_VERSION) {
        fprintf(stderr, "the header has version %d, the library another\n", ROOTMAP_VERSION);
        return 1;
    }
    printf("version %d\n", ROOTMAP_VERSION);
    return 0;
}
