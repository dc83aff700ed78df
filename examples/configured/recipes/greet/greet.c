#include <stdio.h>

/* Says where it was built. */
int main(void) {
    puts("hello from " BUILT_AT);
    return 0;
}
