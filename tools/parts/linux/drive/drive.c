/* Makes the calls of fsc's scripts on a real kernel, and prints the lines of fsc's log.
 *
 *     drive CALLS TEMPLATE ANSWERS FOLDER
 *
 * CALLS is a text that ends with a line `END`, TEMPLATE an ext4 image; CALLS and ANSWERS may be
 * disks. drive runs as root. Each script gets a file system of its own, the template's blocks in a
 * file in FOLDER; each caller is a process of its own with its own user, whose root is that file
 * system.
 *
 * The lines of CALLS, fields parted by tabs:
 *     S NAME MODE                       the next script; MODE is `settle` or `raw`
 *     C CALLER UID                      a caller
 *     X CALLER UID EXPECTED LOGGED VERB WORDS..   a call; LOGGED is its line up to the `=`
 *
 * EXPECTED is `ok`, or `no` where the mount refuses: what this kernel does all the same is taken
 * back, or where that can't be the script is cut. In a path the part `@N=TEXT` is the mount's
 * no-key text of node N: the name by which this kernel lists that node represents it.
 *
 * After an answer come, each after a tab, words `key:value` for the comparison: the error, the
 * nodes of a listing, and what was taken back or cut. A line `F TEXT` reports a fault of drive's own.
 */
#define _GNU_SOURCE
#include "drive.h"
#include "../common/file_system.h"

#include <errno.h>
#include <fcntl.h>
#include <grp.h>
#include <linux/fscrypt.h>
#include <stdio.h>
#include <stdlib.h>
#include <string.h>
#include <sys/mman.h>
#include <sys/resource.h>
#include <sys/stat.h>
#include <sys/wait.h>
#include <unistd.h>

#define MAX_CALLERS 8

struct shared *shared;

static struct { pid_t process; int to, from; } callers[MAX_CALLERS];

/* A caller's process: it answers a call for each byte that it reads. */
static void serve(unsigned user, int from, int to)
{
	char byte;

	no_handles();
	if (chroot(mounted) || chdir("/") || setgroups(0, NULL))
		_exit(1);
	if (user && (setgid(user) || setuid(user)))
		_exit(1);
	while (read(from, &byte, 1) == 1) {
		begin_reply(shared->out, sizeof shared->out);
		answer(shared->line);
		shared->written = reply_length();
		if (write(to, "", 1) != 1)
			break;
	}
	_exit(0);
}

static void start_caller(int caller, unsigned user)
{
	int there[2], back[2];

	if (pipe2(there, O_CLOEXEC) || pipe2(back, O_CLOEXEC))
		exit(1);
	callers[caller].process = fork();
	if (!callers[caller].process) {
		close(there[1]);
		close(back[0]);
		for (int i = 0; i < caller; i++) {
			close(callers[i].to);
			close(callers[i].from);
		}
		serve(user, there[0], back[1]);
	}
	close(there[0]);
	close(back[1]);
	callers[caller].to = there[1];
	callers[caller].from = back[0];
}

static void stop_callers(void)
{
	for (int i = 0; i < MAX_CALLERS; i++) {
		if (!callers[i].process)
			continue;
		close(callers[i].to);
		close(callers[i].from);
		waitpid(callers[i].process, NULL, 0);
		callers[i].process = 0;
	}
}

static int caches = -1;

/* What the mount's last close does: a key without claims goes where nothing holds it. */
static void settle(void)
{
	for (int i = 0; i < shared->keys; i++) {
		struct fscrypt_get_key_status_arg status = { .key_spec.type = FSCRYPT_KEY_SPEC_TYPE_IDENTIFIER };
		struct fscrypt_remove_key_arg removed = { .key_spec.type = FSCRYPT_KEY_SPEC_TYPE_IDENTIFIER };

		memcpy(status.key_spec.u.identifier, shared->key[i], ID_BYTES);
		memcpy(removed.key_spec.u.identifier, shared->key[i], ID_BYTES);
		if (!key_call(mounted, FS_IOC_GET_ENCRYPTION_KEY_STATUS, &status) &&
		    status.status == FSCRYPT_KEY_STATUS_INCOMPLETELY_REMOVED)
			key_call(mounted, FS_IOC_REMOVE_ENCRYPTION_KEY, &removed);
	}
}

static FILE *answers;

/* Linux asks for an owner, of whom the mount knows nothing. */
static void give_to_caller(const char *text, unsigned user)
{
	static char path[MAX_PATH];
	struct stat status;

	resolve(mounted, text, path);
	if (!lstat(path, &status) && !S_ISLNK(status.st_mode) && lchown(path, user, -1))
		fprintf(answers, "F chown %s\n", strerror(errno));
}

static void end_script(bool mounted)
{
	stop_callers();
	if (mounted && unmount())
		fprintf(answers, "F unmount %s\n", strerror(errno));
	fflush(answers);
}

static void begin_script(const char *line)
{
	shared->nodes = 1;
	shared->inode[0] = 2;
	shared->keys = 0;
	fprintf(answers, "%s\n", line);
	if (mount_fresh())
		fprintf(answers, "F mount %s\n", strerror(errno));
}

/* Has a caller answer, and returns whether the script goes on. */
static bool make_call(const char *line, bool settles)
{
	static char copy[MAX_LINE];
	char *words[MAX_WORDS], byte;
	int caller;

	split(strcpy(copy, line), words, MAX_WORDS);
	caller = atoi(words[1]);
	if (!strcmp(words[5], "set-policy"))
		give_to_caller(words[6], strtoul(words[2], NULL, 10));
	strcpy(shared->line, line);
	shared->written = 0;
	shared->cut = shared->closed = shared->drop = false;
	if (write(callers[caller].to, "", 1) != 1 || read(callers[caller].from, &byte, 1) != 1) {
		fprintf(answers, "F caller %d died\n", caller);
		return false;
	}
	if (shared->drop) {
		sync();
		if (write(caches, "3", 1) != 1)
			fprintf(answers, "F caches stayed\n");
	}
	if (shared->closed && settles)
		settle();
	fwrite(shared->out, 1, shared->written, answers);
	return !shared->cut;
}

static int set_up(char **names)
{
	struct rlimit files = { MAX_HANDLES + 100, MAX_HANDLES + 100 };

	shared = mmap(NULL, sizeof *shared, PROT_READ | PROT_WRITE, MAP_SHARED | MAP_ANONYMOUS, -1, 0);
	answers = fopen(names[3], "r+");
	caches = open("/proc/sys/vm/drop_caches", O_WRONLY | O_CLOEXEC);
	umask(0);
	return shared == MAP_FAILED || !answers || caches < 0 || setrlimit(RLIMIT_NOFILE, &files) ||
	       !prepare_file_system(names[2], names[4]);
}

int main(int count, char **names)
{
	static char line[MAX_LINE];
	bool mounted = false, settles = true, goes_on = true;
	long scripts = 0;
	int caller;
	unsigned user;
	FILE *calls = count == 5 ? fopen(names[1], "r") : NULL;

	if (!calls || set_up(names)) {
		perror("drive");
		return 1;
	}
	while (fgets(line, sizeof line, calls) && strcmp(line, "END\n")) {
		line[strcspn(line, "\n")] = 0;
		if (*line == 'S') {
			end_script(mounted);
			begin_script(line);
			mounted = goes_on = true;
			settles = !strstr(line, "\traw");
			if (++scripts % 50 == 0)
				fprintf(stderr, "drive: %ld scripts\n", scripts);
		} else if (sscanf(line, "C\t%d\t%u", &caller, &user) == 2) {
			start_caller(caller, user);
		} else if (*line == 'X' && goes_on) {
			goes_on = make_call(line, settles);
		}
	}
	end_script(mounted);
	fprintf(answers, "END\n");
	return fflush(answers) || fsync(fileno(answers));
}
