/* Prints how many words standard input has. */
#include <stdio.h>
#include <text.h>

int main(void)
{
    char line[1024];
    int words = 0;
    while (next_line(line, sizeof line))
        words += count_words(line);
    printf("%d words\n", words);
    return 0;
}
