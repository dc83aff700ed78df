/* How many words a line has. */
int count_words(const char *line);
/* Turns a line round. */
void turn_round(char *line);
