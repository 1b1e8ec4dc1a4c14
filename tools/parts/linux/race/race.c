/* Has the callers of scripts make their calls at once, and prints when each began and ended, and its
 * reply.
 *
 *     race SCRIPTS TEMPLATE ANSWERS FOLDER
 *
 * SCRIPTS is a text that ends with a line `END`, TEMPLATE an ext4 image; SCRIPTS and ANSWERS may be disks.
 * race runs as root. The lines of SCRIPTS, fields separated by tabs:
 *     S NAME MODE REPEATS SEED PAUSE    the next script; MODE is `free` or `rounds`, PAUSE the most ns
 *     C CALLER UID                      a caller: a thread with a user of its own
 *     K IDENTIFIER                      a key of the script, which is removed between repetitions
 *     X CALLER PHASE VERB ARGUMENTS..   a call; PHASE is 0 before, 1 together, 2 after
 *
 * Each repetition has a fresh directory as its root and none of the keys; a fresh ext4 comes after
 * REPEATS_OF_A_MOUNT. ANSWERS has for each repetition
 *     R NAME REPEAT
 *     CALLER INDEX BEGIN END NS NS REPLY
 * BEGIN and END are tickets of one counter, NS are times. A line `F TEXT` is a fault of race's own. The
 * answers of a script are written when it ends, so that a machine that ends early leaves whole histories.
 */
#define _GNU_SOURCE
#include "race.h"
#include "../common/file_system.h"

#include <errno.h>
#include <fcntl.h>
#include <stdio.h>
#include <stdlib.h>
#include <string.h>
#include <sys/resource.h>
#include <sys/stat.h>
#include <unistd.h>

#define REPEATS_OF_A_MOUNT 150
#define SCRIPTS_OF_A_LINE 20
#define FIELDS 8

struct script script;
static FILE *answers;
static int roots;			/* directories made on the mounted file system; none where nothing is mounted */

static void end_file_system(void)
{
	if (roots && unmount())
		fprintf(answers, "F unmount %s\n", strerror(errno));
	roots = 0;
}

static bool begin_root(void)
{
	if (roots == REPEATS_OF_A_MOUNT)
		end_file_system();
	if (!roots && mount_fresh()) {
		fprintf(answers, "F mount %s\n", strerror(errno));
		return false;
	}
	snprintf(root_path, sizeof root_path, "%s/r%d", mounted, roots++);
	mkdir(root_path, 0777);
	root = open(root_path, O_RDONLY | O_DIRECTORY | O_CLOEXEC);
	if (root < 0)
		fprintf(answers, "F root %s\n", strerror(errno));
	return root >= 0;
}

static void print_replies(int repeat)
{
	fprintf(answers, "R\t%s\t%d\n", script.name, repeat);
	for (int i = 0; i < script.callers_count; i++) {
		for (int k = 0; k < script.callers[i].calls_count; k++) {
			struct call *call = &script.callers[i].calls[k];

			fprintf(answers, "%d\t%d\t%lu\t%lu\t%lu\t%lu\t%s\n", i, k, call->begin, call->end, call->begin_ns,
				call->end_ns, call->reply);
			free(call->reply);
		}
	}
}

static void close_handles(void)
{
	for (int i = 0; i < script.callers_count; i++)
		for (int k = 0; k < script.callers[i].opened; k++)
			if (script.callers[i].handles[k] >= 0)
				close(script.callers[i].handles[k]);
}

static void run_repetition(int repeat)
{
	bool clean;

	if (!begin_root())
		return;
	run_callers(repeat);
	print_replies(repeat);
	close_handles();
	clean = remove_all_keys();
	close(root);
	if (!clean) {
		fprintf(answers, "F a key is left\n");
		end_file_system();
	}
}

/* Runs the script that was read, and forgets it. */
static void run_script(void)
{
	for (int repeat = 0; repeat < script.repeats; repeat++)
		run_repetition(repeat);
	for (int i = 0; i < script.callers_count; i++)
		for (int k = 0; k < script.callers[i].calls_count; k++)
			free(script.callers[i].calls[k].line);
	memset(&script, 0, sizeof script);
	fflush(answers);
	fdatasync(fileno(answers));
}

static void read_script(char **fields)
{
	snprintf(script.name, sizeof script.name, "%s", fields[1]);
	script.rounds = !strcmp(fields[2], "rounds");
	script.repeats = atoi(fields[3]);
	script.seed = strtoull(fields[4], NULL, 10);
	script.max_pause_ns = strtoull(fields[5], NULL, 10);
}

static void read_call(char *line, char **fields)
{
	struct caller *caller = &script.callers[atoi(fields[1])];
	struct call *call = &caller->calls[caller->calls_count];

	*call = (struct call){ .phase = atoi(fields[2]), .line = line, .verb = fields[3] };
	memcpy(call->arguments, fields + 4, sizeof call->arguments);
	if (call->phase == BEFORE) {
		call->position = script.alone_before++;
	} else if (call->phase == AFTER) {
		call->position = script.alone_after++;
	} else {
		for (int k = 0; k < caller->calls_count; k++)
			call->position += caller->calls[k].phase == TOGETHER;
		script.in_round[call->position]++;
		script.together++;
	}
	caller->calls_count++;
}

/* Takes a line of SCRIPTS; false at the last. */
static bool take_line(char *text)
{
	char *line = strdup(text), *fields[FIELDS];
	static long scripts;

	split(line, fields, FIELDS);
	if (*text == 'S' || !strcmp(text, "END"))
		run_script();
	if (*text == 'S') {
		read_script(fields);
		if (++scripts % SCRIPTS_OF_A_LINE == 0)
			fprintf(stderr, "race: %ld scripts\n", scripts);
	} else if (*text == 'C') {
		script.callers_count = atoi(fields[1]) + 1;
		script.callers[script.callers_count - 1].user = strtoul(fields[2], NULL, 10);
	} else if (*text == 'K') {
		read_bytes(fields[1], script.keys[script.keys_count++]);
	} else if (*text == 'X') {
		read_call(line, fields);
		return true;
	}
	free(line);
	return strcmp(text, "END");
}

int main(int count, char **names)
{
	static char line[MAX_LINE];
	struct rlimit files = { 4096, 4096 };
	FILE *scripts = count == 5 ? fopen(names[1], "r") : NULL;

	answers = count == 5 ? fopen(names[3], "r+") : NULL;
	umask(0);
	if (!scripts || !answers || !open_caches() || setrlimit(RLIMIT_NOFILE, &files) ||
	    !prepare_file_system(names[2], names[4])) {
		perror("race");
		return 1;
	}
	while (fgets(line, sizeof line, scripts)) {
		line[strcspn(line, "\n")] = 0;
		if (!take_line(line))
			break;
	}
	end_file_system();
	fprintf(answers, "END\n");
	return fflush(answers) || fsync(fileno(answers));
}
