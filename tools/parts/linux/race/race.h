/* What the parts of race share. */
#pragma once

#include "../common/words.h"

#include <pthread.h>
#include <stdbool.h>
#include <stdint.h>

#define MAX_CALLERS 8
#define MAX_CALLS 256
#define MAX_ARGUMENTS 4
#define MAX_HANDLES 256
#define MAX_KEYS 16
#define MAX_LINE 20000
#define MAX_REPLY 20000
#define ID_BYTES 16

/* When a call is made: alone in the script's order, at once with those of other callers, or alone after
 * these. */
enum phase { BEFORE, TOGETHER, AFTER };

struct call {
	enum phase phase;
	int position;			/* among the calls made alone, or its round */
	char *line, *verb, *arguments[MAX_ARGUMENTS];
	uint64_t begin, end;		/* tickets */
	uint64_t begin_ns, end_ns;
	char *reply;
};

struct caller {
	unsigned user;
	int calls_count;
	struct call calls[MAX_CALLS];
	int handles[MAX_HANDLES], opened;
	uint64_t random;
	pthread_t thread;
};

struct script {
	char name[256];
	int repeats;
	uint64_t seed, max_pause_ns;
	bool rounds;			/* a barrier before each call, in place of drawn pauses */
	struct caller callers[MAX_CALLERS];
	int callers_count, alone_before, alone_after, together;
	int in_round[MAX_CALLS];	/* how many callers have a call in it */
	unsigned char keys[MAX_KEYS][ID_BYTES];
	int keys_count;
};
extern struct script script;

/* calls.c and keys.c: the calls, of the caller whose thread this is. */
extern __thread struct caller *me;
extern char root_path[300];		/* the directory that is the script's root */
extern int root;			/* it is open, for the calls on keys */
void become(unsigned user);
void make_call(const struct call *call);
bool open_caches(void);
void add_key(const struct call *call);
void remove_key(const struct call *call);
void key_status(const struct call *call);
void remove_unclaimed_keys(void);
bool remove_all_keys(void);

/* threads.c: one repetition of the script. */
void run_callers(uint64_t repeat);
