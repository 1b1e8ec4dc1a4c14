/* A fresh ext4 on a loop device, as often as it is asked for. */
#pragma once

#include <stdbool.h>

#define MAX_FOLDER 200

/* The directory at which the file system is mounted. */
extern char mounted[MAX_FOLDER + 2];

/* Reads the template and makes image and mount point in a folder. */
bool prepare_file_system(const char *template, const char *folder);
int mount_fresh(void);
int unmount(void);
