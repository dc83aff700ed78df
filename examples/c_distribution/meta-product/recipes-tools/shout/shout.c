/* Prints each line in capital letters. */
#include <stdio.h>
#include <text.h>

int main(void)
{
    char line[1024];
    while (next_line(line, sizeof line)) {
        raise_letters(line);
        printf("%s!\n", line);
    }
    return 0;
}
