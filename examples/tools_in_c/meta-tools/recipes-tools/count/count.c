#include <lines.h>
#include <stdio.h>
#include <words.h>

int main(void)
{
    char line[1024];
    int words = 0;
    while (next_line(line, sizeof line))
        words += count_words(line);
    printf("%d\n", words);
    return 0;
}
