/* The texts of fsc's scripts and logs, and the reply that a thread or process is writing. */
#define _GNU_SOURCE
#include "words.h"

#include <errno.h>
#include <stdarg.h>
#include <stdbool.h>
#include <stdio.h>
#include <string.h>

static __thread struct { char *buffer; size_t size, length; } reply;

void begin_reply(char *buffer, size_t size)
{
	reply.buffer = buffer;
	reply.size = size;
	reply.length = 0;
	*buffer = 0;
}

size_t reply_length(void)
{
	return reply.length;
}

void put(const char *format, ...)
{
	va_list list;
	size_t left = reply.size - reply.length;
	int length;

	va_start(list, format);
	length = vsnprintf(reply.buffer + reply.length, left, format, list);
	va_end(list);
	reply.length += length < 0 ? 0 : (size_t)length < left ? (size_t)length : left - 1;
}

/* Writes bytes as a WORD of the log. */
void put_word(const char *bytes, size_t length)
{
	for (size_t i = 0; i < length; i++) {
		unsigned char byte = bytes[i];
		bool plain = (byte >= 'A' && byte <= 'Z') || (byte >= 'a' && byte <= 'z') || (byte >= '0' && byte <= '9');

		put(plain || (byte && strchr("-._~", byte)) ? "%c" : "%%%02X", byte);
	}
}

void put_bytes(const void *bytes, size_t length)
{
	if (!length)
		put("-");
	for (size_t i = 0; i < length; i++)
		put("%02x", ((const unsigned char *)bytes)[i]);
}

static int digit(int character)
{
	return character <= '9' ? character - '0' : (character | 32) - 'a' + 10;
}

int read_bytes(const char *text, unsigned char *bytes)
{
	int length = 0;

	for (; text[0] != '-' && text[0] && text[1]; text += 2)
		bytes[length++] = digit(text[0]) * 16 + digit(text[1]);
	return length;
}

/* Reads a WORD of that many characters, ends it with a NUL, and returns its length. */
int read_word(const char *text, int characters, char *word)
{
	int length = 0;

	for (int i = 0; i < characters; i++) {
		if (text[i] == '%') {
			word[length++] = digit(text[i + 1]) * 16 + digit(text[i + 2]);
			i += 2;
		} else {
			word[length++] = text[i];
		}
	}
	word[length] = 0;
	return length;
}

/* Cuts a line at its tabs into this many words; those that are missing are empty. */
void split(char *line, char **words, int count)
{
	int found = 0;

	for (char *at = line; at && found < count;) {
		words[found++] = at;
		at = strchr(at, '\t');
		if (at)
			*at++ = 0;
	}
	while (found < count)
		words[found++] = "";
}

static const struct { int error; const char *name; } REFUSALS[] = {
	{ ENOKEY, "no-key" }, { EACCES, "access" }, { EDQUOT, "quota" }, { EINVAL, "inval" }, { EEXIST, "exists" },
	{ ENOENT, "not-found" }, { ENOTDIR, "not-dir" }, { EISDIR, "is-dir" }, { ENOTEMPTY, "not-empty" },
	{ EXDEV, "x-dev" }, { ENODATA, "no-data" }, { EBADF, "bad-handle" }, { ENAMETOOLONG, "name-too-long" },
	{ EFBIG, "too-big" }, { ENOSPC, "no-space" }, { ENOMEM, "no-memory" },
};

/* Replies with the refusal that the error is, and the error's own name after a tab. */
void refuse(int error)
{
	const char *name = strerrorname_np(error);

	for (size_t i = 0; i < sizeof REFUSALS / sizeof *REFUSALS; i++)
		if (REFUSALS[i].error == error)
			name = REFUSALS[i].name;
	put("refused %s\terrno:%s", name, strerrorname_np(error));
}
