/* What a directory lists on this kernel, and which of the mount's nodes is which. */
#define _GNU_SOURCE
#include "drive.h"

#include <dirent.h>
#include <errno.h>
#include <fcntl.h>
#include <linux/openat2.h>
#include <stdio.h>
#include <stdlib.h>
#include <string.h>
#include <sys/stat.h>
#include <sys/syscall.h>
#include <unistd.h>

static int by_name(const void *one, const void *other)
{
	return strcmp(((const struct entry *)one)->name, ((const struct entry *)other)->name);
}

/* The entries of a directory in the order of their bytes, or -1. It closes the descriptor. */
int read_entries(int descriptor, struct entry **entries)
{
	DIR *directory = fdopendir(descriptor);
	struct dirent *found;
	int count = 0, error;

	*entries = NULL;
	if (!directory)
		return -1;
	while (errno = 0, (found = readdir(directory))) {
		if (!strcmp(found->d_name, ".") || !strcmp(found->d_name, ".."))
			continue;
		*entries = realloc(*entries, (count + 1) * sizeof **entries);
		(*entries)[count++] = (struct entry){ strdup(found->d_name), found->d_ino };
	}
	error = errno;
	closedir(directory);
	errno = error;
	if (count)
		qsort(*entries, count, sizeof **entries, by_name);
	return error ? -1 : count;
}

void drop_entries(struct entry *entries, int count)
{
	for (int i = 0; i < count; i++)
		free(entries[i].name);
	free(entries);
}

int open_directory(const char *path)
{
	return open(path, O_RDONLY | O_DIRECTORY | O_NOFOLLOW);
}

/* The newest node with this inode: a number may be given again. */
int node_of(ino_t inode)
{
	for (int node = shared->nodes - 1; node >= 0; node--)
		if (shared->inode[node] == inode)
			return node;
	return -1;
}

void name_node(int node, const char *path)
{
	snprintf(shared->name[node], sizeof shared->name[node], "%.255s", strrchr(path, '/') + 1);
}

/* The node that was made now at this path has this number. */
void learn(int node, const char *path)
{
	struct stat status;

	if (node < 0 || node >= MAX_NODES || lstat(path, &status))
		return;
	shared->inode[node] = status.st_ino;
	if (node >= shared->nodes)
		shared->nodes = node + 1;
	name_node(node, path);
}

/* Appends the name by which this kernel lists a node in a directory; false where it lists none. */
static bool put_listed(const char *directory, int node, char *end)
{
	struct entry *entries;
	int descriptor = open_directory(*directory ? directory : "/");
	int count = descriptor < 0 || node >= MAX_NODES ? -1 : read_entries(descriptor, &entries);
	bool found = false;

	for (int i = 0; i < count && !found; i++) {
		found = entries[i].inode == shared->inode[node];
		if (found)
			sprintf(end, "/%s", entries[i].name);
	}
	if (count >= 0)
		drop_entries(entries, count);
	return found;
}

/* The path that a text of the log is on this kernel, below a prefix. */
void resolve(const char *prefix, const char *text, char *path)
{
	int length = sprintf(path, "%s", prefix);

	while (*text == '/' && text[1]) {
		const char *part = text + 1, *shown = part;
		int characters = strcspn(part, "/");

		if (*part == '@')
			shown = (const char *)memchr(part, '=', characters) + 1;
		if (*part == '@' && put_listed(path, atoi(part + 1), path + length)) {
			length += strlen(path + length);
		} else {
			path[length++] = '/';
			length += read_word(shown, part + characters - shown, path + length);
		}
		text = part + characters;
	}
	if (!length)
		strcpy(path, "/");
}

/* Whether a link is within the path, before its last part. */
bool through_link(const char *path)
{
	static char above[MAX_PATH];
	struct open_how how = { .flags = O_PATH | O_DIRECTORY, .resolve = RESOLVE_NO_SYMLINKS };
	int descriptor;

	strcpy(above, path);
	*strrchr(above, '/') = 0;
	if (!*above)
		return false;
	descriptor = syscall(SYS_openat2, AT_FDCWD, above, &how, sizeof how);
	if (descriptor >= 0)
		close(descriptor);
	return descriptor < 0 && errno == ELOOP;
}
