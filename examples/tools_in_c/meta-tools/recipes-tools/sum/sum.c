#include <lines.h>
#include <numbers.h>
#include <stdio.h>

int main(void)
{
    char line[1024];
    long sum = 0;
    while (next_line(line, sizeof line))
        sum += number_of(line);
    printf("%ld\n", sum);
    return 0;
}
