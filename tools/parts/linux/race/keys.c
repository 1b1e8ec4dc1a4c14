/* The calls on keys, and the removals of race's own. */
#define _GNU_SOURCE
#include "race.h"

#include <errno.h>
#include <linux/fscrypt.h>
#include <string.h>
#include <sys/ioctl.h>
#include <sys/syscall.h>
#include <unistd.h>

#define NO_CALLERS_USER 4000000000u
#define MAX_TRIES 100

void add_key(const struct call *call)
{
	unsigned char buffer[sizeof(struct fscrypt_add_key_arg) + 256] = { 0 };
	struct fscrypt_add_key_arg *added = (struct fscrypt_add_key_arg *)buffer;

	added->key_spec.type = FSCRYPT_KEY_SPEC_TYPE_IDENTIFIER;
	added->raw_size = read_bytes(call->arguments[0], added->raw);
	if (ioctl(root, FS_IOC_ADD_ENCRYPTION_KEY, added)) {
		refuse(errno);
	} else {
		put("added ");
		put_bytes(added->key_spec.u.identifier, ID_BYTES);
	}
}

void remove_key(const struct call *call)
{
	struct fscrypt_remove_key_arg removed = { .key_spec.type = FSCRYPT_KEY_SPEC_TYPE_IDENTIFIER };
	bool all = !strcmp(call->verb, "remove-key-all");

	read_bytes(call->arguments[0], removed.key_spec.u.identifier);
	if (ioctl(root, all ? FS_IOC_REMOVE_ENCRYPTION_KEY_ALL_USERS : FS_IOC_REMOVE_ENCRYPTION_KEY, &removed))
		refuse(errno);
	else
		put("removed others=%d busy=%d",
		    !!(removed.removal_status_flags & FSCRYPT_KEY_REMOVAL_STATUS_FLAG_OTHER_USERS),
		    !!(removed.removal_status_flags & FSCRYPT_KEY_REMOVAL_STATUS_FLAG_FILES_BUSY));
}

void key_status(const struct call *call)
{
	static const char *const STATES[] = { "?", "absent", "present", "incomplete" };
	struct fscrypt_get_key_status_arg status = { .key_spec.type = FSCRYPT_KEY_SPEC_TYPE_IDENTIFIER };

	read_bytes(call->arguments[0], status.key_spec.u.identifier);
	if (ioctl(root, FS_IOC_GET_ENCRYPTION_KEY_STATUS, &status))
		refuse(errno);
	else
		put("status %s self=%d users=%u", STATES[status.status & 3],
		    !!(status.status_flags & FSCRYPT_KEY_STATUS_FLAG_ADDED_BY_SELF), status.user_count);
}

/* What the mount's last close does: a key without claims is removed. The user has no claim, so a present
 * key stays.
 *
 * setfsuid away from 0 drops the capabilities of files, and a later change of the effective user from 0
 * to 0 doesn't restore them: setfsuid(0) does.
 */
void remove_unclaimed_keys(void)
{
	become(0);
	syscall(SYS_setfsuid, NO_CALLERS_USER);
	for (int i = 0; i < script.keys_count; i++) {
		struct fscrypt_remove_key_arg removed = { .key_spec.type = FSCRYPT_KEY_SPEC_TYPE_IDENTIFIER };

		memcpy(removed.key_spec.u.identifier, script.keys[i], ID_BYTES);
		ioctl(root, FS_IOC_REMOVE_ENCRYPTION_KEY, &removed);
	}
	syscall(SYS_setfsuid, 0);
	become(me ? me->user : 0);
}

/* Removes every claim on the script's keys until all are absent. */
bool remove_all_keys(void)
{
	bool left = true;

	for (int tries = 0; tries < MAX_TRIES && left; tries++) {
		left = false;
		for (int i = 0; i < script.keys_count; i++) {
			struct fscrypt_get_key_status_arg status = { .key_spec.type = FSCRYPT_KEY_SPEC_TYPE_IDENTIFIER };
			struct fscrypt_remove_key_arg removed = { .key_spec.type = FSCRYPT_KEY_SPEC_TYPE_IDENTIFIER };

			memcpy(status.key_spec.u.identifier, script.keys[i], ID_BYTES);
			removed.key_spec = status.key_spec;
			ioctl(root, FS_IOC_REMOVE_ENCRYPTION_KEY_ALL_USERS, &removed);
			if (ioctl(root, FS_IOC_GET_ENCRYPTION_KEY_STATUS, &status) || status.status != FSCRYPT_KEY_STATUS_ABSENT)
				left = true;
		}
		if (left && tries)
			usleep(1000);
	}
	return !left;
}
