/* The calls on keys. */
#define _GNU_SOURCE
#include "drive.h"

#include <errno.h>
#include <linux/fscrypt.h>
#include <string.h>
#include <sys/ioctl.h>
#include <unistd.h>

int key_call(const char *root, unsigned long request, void *argument)
{
	int descriptor = open_directory(root);
	int result = ioctl(descriptor, request, argument), error = errno;

	close(descriptor);
	errno = error;
	return result;
}

static void note_key(const unsigned char *identifier)
{
	for (int i = 0; i < shared->keys; i++)
		if (!memcmp(shared->key[i], identifier, ID_BYTES))
			return;
	if (shared->keys < MAX_KEYS)
		memcpy(shared->key[shared->keys++], identifier, ID_BYTES);
}

void add_key(const struct call *call)
{
	static unsigned char room[sizeof(struct fscrypt_add_key_arg) + 256];
	struct fscrypt_add_key_arg *added = (struct fscrypt_add_key_arg *)room;
	struct fscrypt_remove_key_arg removed = { 0 };

	memset(room, 0, sizeof room);
	added->key_spec.type = FSCRYPT_KEY_SPEC_TYPE_IDENTIFIER;
	added->raw_size = read_bytes(call->words[0], added->raw);
	if (key_call("/", FS_IOC_ADD_ENCRYPTION_KEY, added)) {
		done(call, -1, errno);
		return;
	}
	note_key(added->key_spec.u.identifier);
	put("added ");
	put_bytes(added->key_spec.u.identifier, ID_BYTES);
	if (!call->expected) {
		removed.key_spec = added->key_spec;
		taken_back(key_call("/", FS_IOC_REMOVE_ENCRYPTION_KEY, &removed));
	}
}

void remove_key(const struct call *call)
{
	struct fscrypt_remove_key_arg removed = { .key_spec.type = FSCRYPT_KEY_SPEC_TYPE_IDENTIFIER };
	bool all = !strcmp(call->verb, "remove-key-all");

	read_bytes(call->words[0], removed.key_spec.u.identifier);
	if (key_call("/", all ? FS_IOC_REMOVE_ENCRYPTION_KEY_ALL_USERS : FS_IOC_REMOVE_ENCRYPTION_KEY, &removed))
		refuse(errno);
	else
		put("removed others=%d busy=%d",
		    !!(removed.removal_status_flags & FSCRYPT_KEY_REMOVAL_STATUS_FLAG_OTHER_USERS),
		    !!(removed.removal_status_flags & FSCRYPT_KEY_REMOVAL_STATUS_FLAG_FILES_BUSY));
}

void key_status(const struct call *call)
{
	static const char *const STATES[] = { "?", "absent", "present", "incomplete" };
	struct fscrypt_get_key_status_arg status = { .key_spec.type = FSCRYPT_KEY_SPEC_TYPE_IDENTIFIER };

	read_bytes(call->words[0], status.key_spec.u.identifier);
	if (key_call("/", FS_IOC_GET_ENCRYPTION_KEY_STATUS, &status))
		refuse(errno);
	else
		put("status %s self=%d users=%u", STATES[status.status & 3],
		    !!(status.status_flags & FSCRYPT_KEY_STATUS_FLAG_ADDED_BY_SELF), status.user_count);
}
