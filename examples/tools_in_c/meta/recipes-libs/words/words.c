#include "words.h"
#include <string.h>

int count_words(const char *line)
{
    int words = 0;
    for (line += strspn(line, " "); *line; line += strspn(line, " ")) {
        words++;
        line += strcspn(line, " ");
    }
    return words;
}

void turn_round(char *line)
{
    char *end = line + strlen(line);
    while (line < --end) {
        char c = *line;
        *line++ = *end;
        *end = c;
    }
}
