/* Reads the next line of standard input without its end, and answers 0 where there is none. */
int next_line(char *line, int room);
