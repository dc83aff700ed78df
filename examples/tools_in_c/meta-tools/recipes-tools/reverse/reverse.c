#include <lines.h>
#include <stdio.h>
#include <words.h>

int main(void)
{
    char line[1024];
    while (next_line(line, sizeof line)) {
        turn_round(line);
        puts(line);
    }
    return 0;
}
