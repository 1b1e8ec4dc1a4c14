/* What the parts of drive share. */
#pragma once

#include "../common/words.h"

#include <stdbool.h>
#include <stddef.h>
#include <sys/types.h>

#define MAX_LINE (1 << 20)
#define MAX_PATH 70000
#define MAX_NODES 70000
#define MAX_HANDLES 8192
#define MAX_KEYS 256
#define MAX_WORDS 16
#define ID_BYTES 16

/* What the callers' processes and their parent share. */
struct shared {
	char line[MAX_LINE];              /* the call, as it was read */
	char out[2 * MAX_LINE];           /* its answer */
	int written;
	bool cut, closed, drop;            /* the script ends; a file was closed; caches are to go */
	ino_t inode[MAX_NODES];           /* of a node, by the mount's number */
	char name[MAX_NODES][256];        /* the plain name that it had last */
	int nodes;
	unsigned char key[MAX_KEYS][ID_BYTES];
	int keys;
};
extern struct shared *shared;

struct call {
	bool expected;
	const char *verb;
	char **words;
};

/* answers.c: how a call ends. */
void cut(const char *why);
bool done(const struct call *call, int result, int error);
void taken_back(int result);

/* names.c: what a directory lists, and which node is which. */
struct entry {
	char *name;
	ino_t inode;
};

int read_entries(int descriptor, struct entry **entries);
void drop_entries(struct entry *entries, int count);
int open_directory(const char *path);
int node_of(ino_t inode);
void name_node(int node, const char *path);
void learn(int node, const char *path);
void resolve(const char *prefix, const char *text, char *path);
bool through_link(const char *path);

/* calls.c: the calls on names and on open files. keys.c: those on keys. */
int key_call(const char *root, unsigned long request, void *argument);
void add_key(const struct call *call);
void remove_key(const struct call *call);
void key_status(const struct call *call);
void no_handles(void);
void answer(char *line);
