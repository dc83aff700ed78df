/* The number that a line holds, or 0. */
long number_of(const char *line);
