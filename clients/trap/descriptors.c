#include "descriptors.h"

#include <dirent.h>
#include <fcntl.h>
#include <stdlib.h>
#include <sys/resource.h>
#include <unistd.h>

void descriptors_many(void)
{
    struct rlimit limit;
    if (getrlimit(RLIMIT_NOFILE, &limit) < 0)
        return;
    limit.rlim_cur = limit.rlim_max;
    setrlimit(RLIMIT_NOFILE, &limit);
}

void descriptors_leave(void)
{
    DIR *all = opendir("/proc/self/fd");
    for (struct dirent *each; all != NULL && (each = readdir(all)) != NULL;) {
        int descriptor = atoi(each->d_name), flags = fcntl(descriptor, F_GETFD);
        if (descriptor > STDERR_FILENO && flags >= 0 && (flags & FD_CLOEXEC) == 0)
            close(descriptor);
    }
    if (all != NULL)
        closedir(all);
}
