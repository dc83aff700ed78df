#include <limits.h>
#include <lines.h>
#include <numbers.h>
#include <stdio.h>

int main(void)
{
    char line[1024];
    long largest = LONG_MIN;
    while (next_line(line, sizeof line))
        if (number_of(line) > largest)
            largest = number_of(line);
    printf("%ld\n", largest);
    return 0;
}
