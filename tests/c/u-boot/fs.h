/* What recipes/u-boot uses of U-Boot's <fs.h>: its type of sizes, and printf. */
#include <stdio.h>
#include <sys/types.h>
