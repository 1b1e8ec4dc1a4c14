/* The calls on names and on open files.
 *
 * A call is one system call; or its reply is that of the last of several, and the others changed nothing.
 */
#define _GNU_SOURCE
#include "race.h"

#include <errno.h>
#include <fcntl.h>
#include <linux/fscrypt.h>
#include <stdio.h>
#include <stdlib.h>
#include <string.h>
#include <sys/ioctl.h>
#include <sys/stat.h>
#include <sys/syscall.h>
#include <unistd.h>

#define MAX_READ 4096
#define MAX_WRITE 65536
#define MAX_NAMES 512
#define MAX_TARGET 5000
#define MAX_TRIES 1000

__thread struct caller *me;
char root_path[300];
int root = -1;
static int caches = -1;

/* The thread is this user from now on, with the rights of root only for user 0. The C library's calls
 * change all threads. */
void become(unsigned user)
{
	if (syscall(SYS_setresuid, -1, user, -1))
		abort();
}

bool open_caches(void)
{
	caches = open("/proc/sys/vm/drop_caches", O_WRONLY | O_CLOEXEC);
	return caches >= 0;
}

static void done(long result)
{
	if (result < 0)
		refuse(errno);
	else
		put("ok");
}

/* The path on this kernel of a path of the script. */
static const char *resolved(const char *path, char *buffer)
{
	int length = sprintf(buffer, "%s", root_path);

	for (const char *part = path; *part == '/' && part[1];) {
		int characters = strcspn(++part, "/");

		buffer[length++] = '/';
		length += read_word(part, characters, buffer + length);
		part += characters;
	}
	return buffer;
}

/* Linux asks for an owner, which the mount doesn't have: the directory is given to the caller until no
 * other has it. */
static void set_policy(const struct call *call)
{
	char path[MAX_LINE];
	unsigned char policy[sizeof(struct fscrypt_policy_v2)] = { 0 };
	int descriptor = open(resolved(call->arguments[0], path), O_RDONLY | O_NOFOLLOW | O_CLOEXEC), result, error;

	if (descriptor < 0) {
		refuse(errno);
		return;
	}
	read_bytes(call->arguments[1], policy);
	for (int tries = 0; tries < MAX_TRIES; tries++) {
		become(0);
		result = fchown(descriptor, me->user, -1);
		become(me->user);
		result = result ? result : ioctl(descriptor, FS_IOC_SET_ENCRYPTION_POLICY, policy);
		if (!result || errno != EACCES)
			break;
	}
	error = errno;
	close(descriptor);
	errno = error;
	done(result);
}

static void get_policy(const struct call *call)
{
	char path[MAX_LINE];
	struct fscrypt_get_policy_ex_arg policy = { .policy_size = sizeof policy.policy };
	int descriptor = open(resolved(call->arguments[0], path), O_RDONLY | O_NOFOLLOW | O_CLOEXEC);

	if (descriptor < 0 || ioctl(descriptor, FS_IOC_GET_ENCRYPTION_POLICY_EX, &policy)) {
		refuse(errno);
	} else {
		put("policy ");
		put_bytes(&policy.policy, policy.policy_size);
	}
	if (descriptor >= 0)
		close(descriptor);
}

/* A file is made by mknod: open would hold it for a moment, and a removal beside it would be busy. */
static void change_name(const struct call *call)
{
	char path[MAX_LINE], other[MAX_LINE];

	resolved(call->arguments[0], path);
	if (!strcmp(call->verb, "mkdir"))
		done(mkdir(path, 0777));
	else if (!strcmp(call->verb, "create"))
		done(mknod(path, S_IFREG | 0666, 0));
	else if (!strcmp(call->verb, "unlink"))
		done(unlink(path));
	else if (!strcmp(call->verb, "rmdir"))
		done(rmdir(path));
	else
		done(syscall(SYS_renameat2, AT_FDCWD, path, AT_FDCWD,
			     resolved(call->arguments[1], other), RENAME_NOREPLACE));
}

static void make_link(const struct call *call)
{
	char path[MAX_LINE], target[MAX_LINE];

	read_word(call->arguments[1], strlen(call->arguments[1]), target);
	done(symlink(target, resolved(call->arguments[0], path)));
}

static void read_link(const struct call *call)
{
	char path[MAX_LINE], target[MAX_TARGET];
	int length = readlink(resolved(call->arguments[0], path), target, sizeof target);

	if (length < 0) {
		refuse(errno);
	} else {
		put("target ");
		put_word(target, length);
	}
}

struct directory_entry {
	uint64_t inode;
	int64_t next;
	unsigned short length;
	unsigned char type;
	char name[];
};

static int by_name(const void *one, const void *other)
{
	return strcmp(*(char *const *)one, *(char *const *)other);
}

/* One getdents64 takes all names of a small directory under its lock. */
static void list(const struct call *call)
{
	char path[MAX_LINE], buffer[65536], *names[MAX_NAMES];
	int count = 0;
	int descriptor = open(resolved(call->arguments[0], path), O_RDONLY | O_DIRECTORY | O_NOFOLLOW | O_CLOEXEC);
	long length = descriptor < 0 ? -1 : syscall(SYS_getdents64, descriptor, buffer, sizeof buffer);

	if (length < 0) {
		refuse(errno);
	} else {
		for (long at = 0; at < length && count < MAX_NAMES;) {
			struct directory_entry *entry = (struct directory_entry *)(buffer + at);

			if (strcmp(entry->name, ".") && strcmp(entry->name, ".."))
				names[count++] = entry->name;
			at += entry->length;
		}
		qsort(names, count, sizeof *names, by_name);
		put("names %d more=0", count);
		for (int i = 0; i < count; i++) {
			put(" ");
			put_word(names[i], strlen(names[i]));
		}
	}
	if (descriptor >= 0)
		close(descriptor);
}

/* A node is named by its inode; whether its key is available isn't asked, which would take other system
 * calls. */
static void put_stat(const struct call *call)
{
	char path[MAX_LINE];
	struct statx status;

	if (statx(AT_FDCWD, resolved(call->arguments[0], path), AT_SYMLINK_NOFOLLOW, STATX_BASIC_STATS, &status)) {
		refuse(errno);
		return;
	}
	put("stat %s i%llu %llu enc=%d key=?",
	    S_ISREG(status.stx_mode) ? "file" : S_ISLNK(status.stx_mode) ? "link" : "dir",
	    (unsigned long long)status.stx_ino, (unsigned long long)status.stx_size,
	    !!(status.stx_attributes & STATX_ATTR_ENCRYPTED));
}

/* Opened as a file, then as a directory, and from the beginning if the node was replaced meanwhile. */
static void open_node(const struct call *call)
{
	char path[MAX_LINE];
	int descriptor;

	resolved(call->arguments[0], path);
	do {
		descriptor = open(path, O_RDWR | O_NOFOLLOW | O_CLOEXEC);
		if (descriptor >= 0 || errno != EISDIR)
			break;
		descriptor = open(path, O_RDONLY | O_DIRECTORY | O_NOFOLLOW | O_CLOEXEC);
	} while (descriptor < 0 && errno == ENOTDIR);
	if (descriptor < 0) {
		refuse(errno);
		return;
	}
	put("handle %d", me->opened);
	if (me->opened < MAX_HANDLES)
		me->handles[me->opened++] = descriptor;
}

static int *descriptor_of(const char *number)
{
	static __thread int none;
	unsigned long handle = strtoul(number, NULL, 10);

	none = -1;
	return handle < (unsigned long)me->opened ? &me->handles[handle] : &none;
}

/* Bytes as runs, `COUNTxBYTE,..`. */
static void put_runs(const unsigned char *bytes, ssize_t length)
{
	if (!length)
		put("-");
	for (ssize_t at = 0, to; at < length; at = to) {
		for (to = at; to < length && bytes[to] == bytes[at]; to++)
			;
		put("%s%zdx%02x", at ? "," : "", to - at, bytes[at]);
	}
}

static void read_file(const struct call *call)
{
	unsigned char bytes[MAX_READ];
	size_t asked = strtoul(call->arguments[2], NULL, 10);
	ssize_t length =
	    pread(*descriptor_of(call->arguments[0]), bytes, asked < sizeof bytes ? asked : sizeof bytes,
		  strtoll(call->arguments[1], NULL, 10));

	if (length < 0) {
		refuse(errno);
	} else {
		put("data ");
		put_runs(bytes, length);
	}
}

static void write_file(const struct call *call)
{
	unsigned char bytes[MAX_WRITE];
	ssize_t length, result;

	if (!strcmp(call->verb, "write")) {
		length = read_bytes(call->arguments[2], bytes);
	} else {
		length = strtol(call->arguments[2], NULL, 10);
		memset(bytes, strtol(call->arguments[3], NULL, 10), length);
	}
	result = pwrite(*descriptor_of(call->arguments[0]), bytes, length, strtoll(call->arguments[1], NULL, 10));
	if (result >= 0 && result < length)
		put("part %zd", result);
	else
		done(result);
}

static void close_handle(const struct call *call)
{
	int *descriptor = descriptor_of(call->arguments[0]);

	done(close(*descriptor));
	*descriptor = -1;
	remove_unclaimed_keys();
}

/* The kernel asks for the user at the write. */
static void drop_caches(const struct call *call)
{
	long result;
	int error;

	(void)call;
	become(0);
	result = pwrite(caches, "2", 1, 0) - 1;
	error = errno;
	become(me->user);
	errno = error;
	done(result);
}

static const struct { const char *name; void (*make)(const struct call *); } VERBS[] = {
	{ "add-key", add_key }, { "remove-key", remove_key }, { "remove-key-all", remove_key },
	{ "key-status", key_status },
	{ "set-policy", set_policy }, { "get-policy", get_policy }, { "mkdir", change_name },
	{ "create", change_name },
	{ "symlink", make_link }, { "readlink", read_link }, { "unlink", change_name }, { "rmdir", change_name },
	{ "rename", change_name }, { "list", list }, { "stat", put_stat }, { "open", open_node },
	{ "read", read_file },
	{ "write", write_file }, { "fill", write_file }, { "close", close_handle }, { "drop-caches", drop_caches },
};

void make_call(const struct call *call)
{
	errno = 0;
	for (size_t verb = 0; verb < sizeof VERBS / sizeof *VERBS; verb++) {
		if (!strcmp(VERBS[verb].name, call->verb)) {
			VERBS[verb].make(call);
			return;
		}
	}
	put("unknown");
}
