/* The texts of fsc's scripts and logs, and the reply that a thread or process is writing. */
#pragma once

#include <stddef.h>

/* The reply goes to this buffer from now on. */
void begin_reply(char *buffer, size_t size);
size_t reply_length(void);

void put(const char *format, ...);
void put_word(const char *bytes, size_t length);
void put_bytes(const void *bytes, size_t length);
int read_bytes(const char *text, unsigned char *bytes);
int read_word(const char *text, int characters, char *word);
void split(char *line, char **words, int count);
void refuse(int error);
