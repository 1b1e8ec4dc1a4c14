/* The calls on names and on open files. */
#define _GNU_SOURCE
#include "drive.h"

#include <errno.h>
#include <fcntl.h>
#include <linux/fscrypt.h>
#include <stdio.h>
#include <stdlib.h>
#include <string.h>
#include <sys/ioctl.h>
#include <sys/stat.h>
#include <sys/syscall.h>
#include <unistd.h>

#define MAX_READ 65536
#define NAMES_OF_A_LISTING 128

static char path[MAX_PATH], other[MAX_PATH + 2];

/* Asks for the policy, which has 24 bytes where it is of version 2, or -1. */
static int policy_of(int descriptor, struct fscrypt_get_policy_ex_arg *policy)
{
	memset(policy, 0, sizeof *policy);
	policy->policy_size = sizeof policy->policy;
	return ioctl(descriptor, FS_IOC_GET_ENCRYPTION_POLICY_EX, policy);
}

static void set_policy(const struct call *call)
{
	struct fscrypt_get_policy_ex_arg before;
	unsigned char policy[sizeof(struct fscrypt_policy_v2)] = { 0 };
	int descriptor = open(path, O_RDONLY | O_NOFOLLOW), error = errno, result = -1;
	bool same = false;

	read_bytes(call->words[1], policy);
	if (descriptor >= 0) {
		same = !policy_of(descriptor, &before) && !memcmp(&before.policy, policy, sizeof policy);
		result = ioctl(descriptor, FS_IOC_SET_ENCRYPTION_POLICY, policy);
		error = errno;
		close(descriptor);
		shared->closed = true;
	}
	if (done(call, result, error) && !call->expected && !same)
		cut("policy");
}

static void get_policy(const struct call *call)
{
	struct fscrypt_get_policy_ex_arg policy;
	int descriptor = open(path, O_RDONLY | O_NOFOLLOW);

	(void)call;
	if (descriptor < 0 || policy_of(descriptor, &policy)) {
		refuse(errno);
	} else {
		put("policy ");
		put_bytes(&policy.policy, policy.policy_size);
	}
	if (descriptor >= 0) {
		close(descriptor);
		shared->closed = true;
	}
}

/* What a creation answers; the node's number is the word after. */
static void made(const struct call *call, int result, const char *number, int (*undo)(const char *))
{
	if (!done(call, result, errno))
		return;
	if (call->expected)
		learn(atoi(number), path);
	else
		taken_back(undo(path));
}

static void make_directory(const struct call *call)
{
	made(call, mkdir(path, 0777), call->words[1], rmdir);
}

static void make_file(const struct call *call)
{
	int descriptor = open(path, O_CREAT | O_EXCL | O_RDWR | O_NOFOLLOW, 0666);

	if (descriptor >= 0)
		close(descriptor);
	made(call, descriptor, call->words[1], unlink);
}

static void make_link(const struct call *call)
{
	read_word(call->words[1], strlen(call->words[1]), other);
	made(call, symlink(other, path), call->words[2], unlink);
}

static void read_link(const struct call *call)
{
	int length = readlink(path, other, sizeof other);

	(void)call;
	if (length < 0) {
		refuse(errno);
	} else {
		put("target ");
		put_word(other, length);
	}
}

/* A file's name that the mount keeps is put back, from a second one that it had meanwhile. */
static void remove_name(const struct call *call)
{
	bool directory = !strcmp(call->verb, "rmdir");
	int kept = -1, result, error;

	snprintf(other, sizeof other, "%s~", path);
	if (!call->expected && !directory)
		kept = link(path, other);
	result = directory ? rmdir(path) : unlink(path);
	error = errno;
	if (!done(call, result, error)) {
		if (!kept)
			unlink(other);
	} else if (!call->expected) {
		if (kept)
			cut("removed");
		else
			taken_back(rename(other, path));
	}
}

static int move(const char *from, const char *to)
{
	return syscall(SYS_renameat2, AT_FDCWD, from, AT_FDCWD, to, RENAME_NOREPLACE);
}

static void rename_node(const struct call *call)
{
	struct stat status;
	int node = lstat(path, &status) ? -1 : node_of(status.st_ino);
	int result = move(path, other);

	if (!done(call, result, errno))
		return;
	if (!call->expected)
		taken_back(move(other, path));
	else if (node >= 0)
		name_node(node, other);
}

static void list(const struct call *call)
{
	struct entry *entries;
	long from = strtol(call->words[1], NULL, 10), to;
	int descriptor = open_directory(path);
	int count = descriptor < 0 ? -1 : read_entries(descriptor, &entries);

	if (count < 0) {
		refuse(errno);
		return;
	}
	shared->closed = true;
	from = from < count ? from : count;
	to = count - from > NAMES_OF_A_LISTING ? from + NAMES_OF_A_LISTING : count;
	put("names %ld more=%d", to - from, to < count);
	for (long i = from; i < to; i++) {
		put(" ");
		put_word(entries[i].name, strlen(entries[i].name));
	}
	put("\tnodes:");
	for (long i = from; i < to; i++)
		put(i > from ? ",%d" : "%d", node_of(entries[i].inode));
	drop_entries(entries, count);
}

/* Whether a file's key is at hand, which an open shows. */
static char key_of_file(void)
{
	int descriptor = open(path, O_RDONLY | O_NOFOLLOW);

	if (descriptor < 0)
		return errno == ENOKEY ? '0' : '?';
	close(descriptor);
	shared->closed = true;
	return '1';
}

/* The number of a directory's entries; its key is at hand where the first has its plain name. */
static long size_of_directory(char *key)
{
	struct entry *entries;
	int descriptor = open_directory(path), node;
	int count = descriptor < 0 ? -1 : read_entries(descriptor, &entries);

	if (count > 0) {
		node = node_of(entries->inode);
		*key = node >= 0 && !strcmp(entries->name, shared->name[node]) ? '1' : '0';
	}
	if (count >= 0)
		drop_entries(entries, count);
	return count;
}

/* Where this kernel can't be asked whether the key is at hand, it is reported as `?`. */
static void tell_status(const struct call *call)
{
	struct statx status;
	bool encrypted;
	char key = '?';

	(void)call;
	if (statx(AT_FDCWD, path, AT_SYMLINK_NOFOLLOW, STATX_BASIC_STATS, &status)) {
		refuse(errno);
		return;
	}
	const char *kind = S_ISREG(status.stx_mode) ? "file" : S_ISLNK(status.stx_mode) ? "link" : "dir";
	long size = status.stx_size;

	encrypted = status.stx_attributes & STATX_ATTR_ENCRYPTED;
	if (S_ISDIR(status.stx_mode))
		size = size_of_directory(&key);
	if (S_ISREG(status.stx_mode) && encrypted)
		key = key_of_file();
	put("stat %s %d %ld enc=%d key=%c", kind, node_of(status.stx_ino), size, encrypted, encrypted ? key : '1');
}

static int handles[MAX_HANDLES];

void no_handles(void)
{
	for (int i = 0; i < MAX_HANDLES; i++)
		handles[i] = -1;
}

static int descriptor_of(const char *number)
{
	unsigned long handle = strtoul(number, NULL, 10);

	return handle < MAX_HANDLES ? handles[handle] : -1;
}

static void open_node(const struct call *call)
{
	unsigned long handle = strtoul(call->words[1], NULL, 10);
	int descriptor = open(path, O_RDWR | O_NOFOLLOW);
	bool directory = descriptor < 0 && errno == EISDIR;

	if (directory)
		descriptor = open_directory(path);
	if (descriptor < 0) {
		done(call, -1, errno);
		return;
	}
	put("handle %lu%s", handle, directory ? "\tdir:1" : "");
	if (call->expected && handle < MAX_HANDLES) {
		handles[handle] = descriptor;
	} else {
		taken_back(close(descriptor));
		shared->closed = true;
	}
}

static void read_file(const struct call *call)
{
	static char bytes[MAX_READ];
	size_t asked = strtoul(call->words[2], NULL, 10);
	ssize_t length = pread(descriptor_of(call->words[0]), bytes, asked < sizeof bytes ? asked : sizeof bytes,
			       strtoll(call->words[1], NULL, 10));

	if (length < 0) {
		refuse(errno);
	} else {
		put("data ");
		put_bytes(bytes, length);
	}
}

/* The bytes are given, or a length and one byte. What the mount refuses is cut off again where it is
 * at the end. */
static void write_file(const struct call *call)
{
	static unsigned char bytes[MAX_LINE];
	int descriptor = descriptor_of(call->words[0]);
	off_t at = strtoll(call->words[1], NULL, 10);
	ssize_t length, result;
	struct stat before = { 0 };

	if (!strcmp(call->verb, "write")) {
		length = read_bytes(call->words[2], bytes);
	} else {
		length = strtol(call->words[2], NULL, 10);
		memset(bytes, strtol(call->words[3], NULL, 10), length);
	}
	fstat(descriptor, &before);
	result = pwrite(descriptor, bytes, length, at);
	if (result >= 0 && result < length) {
		result = -1;
		errno = ENOSPC;
		cut("part");
	}
	if (!done(call, result, errno) || call->expected || !length)
		return;
	if (at >= before.st_size)
		taken_back(ftruncate(descriptor, before.st_size));
	else
		cut("written");
}

static void close_handle(const struct call *call)
{
	unsigned long handle = strtoul(call->words[0], NULL, 10);

	int result = close(descriptor_of(call->words[0]));

	done(call, result, errno);
	if (handle < MAX_HANDLES)
		handles[handle] = -1;
	shared->closed = true;
}

static void drop_caches(const struct call *call)
{
	(void)call;
	shared->drop = true;
	put("ok");
}

static const struct { const char *name; int paths; void (*make)(const struct call *); } VERBS[] = {
	{ "add-key", 0, add_key }, { "remove-key", 0, remove_key }, { "remove-key-all", 0, remove_key },
	{ "key-status", 0, key_status }, { "set-policy", 1, set_policy }, { "get-policy", 1, get_policy },
	{ "mkdir", 1, make_directory }, { "create", 1, make_file }, { "symlink", 1, make_link },
	{ "readlink", 1, read_link }, { "unlink", 1, remove_name }, { "rmdir", 1, remove_name },
	{ "rename", 2, rename_node }, { "list", 1, list }, { "stat", 1, tell_status }, { "open", 1, open_node },
	{ "read", 0, read_file }, { "write", 0, write_file }, { "fill", 0, write_file },
	{ "close", 0, close_handle },
	{ "drop-caches", 0, drop_caches },
};

/* Makes the call of a line, and puts its line of the log. */
void answer(char *line)
{
	char *words[MAX_WORDS];
	size_t verb = 0;

	split(line, words, MAX_WORDS);
	struct call call = { .expected = !strcmp(words[3], "ok"), .verb = words[5], .words = words + 6 };
	put("%s = ", words[4]);
	while (verb < sizeof VERBS / sizeof *VERBS && strcmp(VERBS[verb].name, call.verb))
		verb++;
	if (verb == sizeof VERBS / sizeof *VERBS) {
		put("unknown\n");
		return;
	}
	if (VERBS[verb].paths > 0)
		resolve("", call.words[0], path);
	if (VERBS[verb].paths > 1)
		resolve("", call.words[1], other);
	if ((VERBS[verb].paths > 0 && through_link(path)) || (VERBS[verb].paths > 1 && through_link(other))) {
		done(&call, -1, ELOOP);
		put("\tlink:1");
	} else {
		errno = 0;
		VERBS[verb].make(&call);
	}
	put("\n");
}
