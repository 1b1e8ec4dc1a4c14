/* How a call ends: done, refused, taken back, or with the end of the script. */
#define _GNU_SOURCE
#include "drive.h"

#include <errno.h>
#include <string.h>

void cut(const char *why)
{
	put("\tcut:%s", why);
	shared->cut = true;
}

/* The answer of a call that reports nothing but whether it was done; true where it was. */
bool done(const struct call *call, int result, int error)
{
	if (result >= 0) {
		put("ok");
		return true;
	}
	refuse(error);
	if (call->expected)
		cut("refused");
	return false;
}

/* What the mount refuses was taken back with this result, and else the script is cut. */
void taken_back(int result)
{
	if (result < 0)
		cut(strerrorname_np(errno));
	else
		put("\tundone:1");
}
