/* The lines of a list that are about messages: each call, its answer, and every byte that it was lent. */
#ifndef MESSAGES_H
#define MESSAGES_H

#include "fields.h"

/* A code list or block information that is to be written. */
void message_written(char *f[FIELDS]);

/* A code list that is to be read. */
void code_list_read(char *f[FIELDS]);

/* Block information that is to be read. */
void information_read(char *f[FIELDS]);

#endif
