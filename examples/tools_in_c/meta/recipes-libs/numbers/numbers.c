#include "numbers.h"
#include <stdlib.h>

long number_of(const char *line)
{
    return strtol(line, 0, 10);
}
