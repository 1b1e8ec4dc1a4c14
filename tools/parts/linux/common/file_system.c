/* A fresh ext4 on a loop device, as often as it is asked for. */
#define _GNU_SOURCE
#include "file_system.h"

#include <errno.h>
#include <fcntl.h>
#include <linux/loop.h>
#include <stdio.h>
#include <stdlib.h>
#include <string.h>
#include <sys/ioctl.h>
#include <sys/mount.h>
#include <sys/stat.h>
#include <unistd.h>

#define BLOCK 4096
#define MAX_TRIES 200

char mounted[MAX_FOLDER + 2];

/* the blocks of the template, except blocks of zeros */
static struct { off_t at; unsigned char bytes[BLOCK]; } *blocks;
static long block_count;
static off_t image_size;
static int image = -1, loop_device = -1;
static char loop_name[32];

static int load_template(const char *name)
{
	static const unsigned char ZEROS[BLOCK];
	unsigned char bytes[BLOCK];
	int file = open(name, O_RDONLY | O_CLOEXEC);

	image_size = lseek(file, 0, SEEK_END);
	for (off_t at = 0; at < image_size; at += BLOCK) {
		if (pread(file, bytes, BLOCK, at) != BLOCK)
			return -1;
		if (!memcmp(bytes, ZEROS, BLOCK))
			continue;
		blocks = realloc(blocks, (block_count + 1) * sizeof *blocks);
		blocks[block_count].at = at;
		memcpy(blocks[block_count++].bytes, bytes, BLOCK);
	}
	return close(file);
}

bool prepare_file_system(const char *template, const char *folder)
{
	char name[MAX_FOLDER + 7];

	if (strlen(folder) > MAX_FOLDER || load_template(template))
		return false;
	snprintf(mounted, sizeof mounted, "%s/m", folder);
	snprintf(name, sizeof name, "%s/image", folder);
	image = open(name, O_RDWR | O_CREAT | O_CLOEXEC, 0600);
	return image >= 0 && (!mkdir(mounted, 0755) || errno == EEXIST);
}

/* Opens a loop device that is free, which another process may take before the image is on it. */
static int take_loop_device(void)
{
	int control = open("/dev/loop-control", O_RDWR | O_CLOEXEC), number;

	number = control < 0 ? -1 : ioctl(control, LOOP_CTL_GET_FREE);
	if (control >= 0)
		close(control);
	if (number < 0)
		return -1;
	snprintf(loop_name, sizeof loop_name, "/dev/loop%d", number);
	if (loop_device >= 0)
		close(loop_device);
	loop_device = open(loop_name, O_RDWR | O_CLOEXEC);
	return loop_device < 0 ? -1 : ioctl(loop_device, LOOP_SET_FD, image);
}

int mount_fresh(void)
{
	if (ftruncate(image, 0) || ftruncate(image, image_size))
		return -1;
	for (long i = 0; i < block_count; i++)
		if (pwrite(image, blocks[i].bytes, BLOCK, blocks[i].at) != BLOCK)
			return -1;
	for (int tries = 0; take_loop_device(); tries++) {
		if (errno != EBUSY || tries == MAX_TRIES)
			return -1;
		usleep(5000);
	}
	return mount(loop_name, mounted, "ext4", 0, "") ? -1 : chmod(mounted, 0777);
}

/* From Linux 6.10 on a loop device is free only with its last close. */
int unmount(void)
{
	int result = umount(mounted);

	for (int tries = 0; result && errno == EBUSY && tries < MAX_TRIES; tries++) {
		usleep(2000);
		result = umount(mounted);
	}
	for (int tries = 0; tries < MAX_TRIES && ioctl(loop_device, LOOP_CLR_FD, 0); tries++)
		usleep(10000);
	close(loop_device);
	loop_device = -1;
	return result;
}
