#include <lines.h>
#include <stdio.h>
#include <string.h>

int main(void)
{
    char line[1024];
    size_t longest = 0;
    while (next_line(line, sizeof line))
        if (strlen(line) > longest)
            longest = strlen(line);
    printf("%zu\n", longest);
    return 0;
}
