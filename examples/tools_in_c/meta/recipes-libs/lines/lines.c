#include "lines.h"
#include <stdio.h>
#include <string.h>

int next_line(char *line, int room)
{
    if (!fgets(line, room, stdin))
        return 0;
    line[strcspn(line, "\n")] = 0;
    return 1;
}
