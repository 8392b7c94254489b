/* Loaded before the C library: writes the calls that make and replace a file to the file CALLS_LOG, beginning with the first file that is
 * made, and kills the process right before the call with the number CALLS_KILL, counted from 0. */
#define _GNU_SOURCE
#include <dlfcn.h>
#include <fcntl.h>
#include <signal.h>
#include <stdarg.h>
#include <stdio.h>
#include <stdlib.h>
#include <string.h>
#include <sys/stat.h>
#include <sys/syscall.h>
#include <unistd.h>

static int began;
static int number;

static const char *last_part(const char *path) {
  const char *slash = strrchr(path, '/');
  return slash && slash[1] ? slash + 1 : path;
}

static const char *name_of(int fd, char *buffer, size_t len) {
  char link[64];
  snprintf(link, sizeof link, "/proc/self/fd/%d", fd);
  ssize_t used = readlink(link, buffer, len - 1);
  buffer[used < 0 ? 0 : used] = 0;
  return last_part(buffer);
}

static void met(const char *format, ...) {
  const char *kill_at = getenv("CALLS_KILL");
  if (kill_at && number == atoi(kill_at)) kill(getpid(), SIGKILL);
  number++;
  const char *log = getenv("CALLS_LOG");
  if (!log) return;
  char line[512];
  va_list values;
  va_start(values, format);
  int len = vsnprintf(line, sizeof line, format, values);
  va_end(values);
  int fd = syscall(SYS_openat, AT_FDCWD, log, O_WRONLY | O_CREAT | O_APPEND, 0600);
  if (syscall(SYS_write, fd, line, len) != len) abort();
  syscall(SYS_close, fd);
}

#define NEXT(name) ((__typeof__(&name))dlsym(RTLD_NEXT, #name))

int open64(const char *path, int flags, ...) {
  va_list values;
  va_start(values, flags);
  int mode = flags & O_CREAT ? va_arg(values, int) : 0;
  va_end(values);
  if (flags & O_CREAT) {
    began = 1;
    met("open %o %s\n", mode, last_part(path));
  }
  return NEXT(open64)(path, flags, mode);
}

ssize_t write(int fd, const void *bytes, size_t len) {
  char buffer[512];
  if (began && fd > 2) met("write %s\n", name_of(fd, buffer, sizeof buffer));
  return NEXT(write)(fd, bytes, len);
}

int fchown(int fd, uid_t owner, gid_t group) {
  char buffer[512];
  if (began) met("fchown %s\n", name_of(fd, buffer, sizeof buffer));
  return NEXT(fchown)(fd, owner, group);
}

int fchmod(int fd, mode_t mode) {
  char buffer[512];
  if (began) met("fchmod %o %s\n", mode, name_of(fd, buffer, sizeof buffer));
  return NEXT(fchmod)(fd, mode);
}

int fsync(int fd) {
  char buffer[512];
  if (began) met("fsync %s\n", name_of(fd, buffer, sizeof buffer));
  return NEXT(fsync)(fd);
}

int rename(const char *from, const char *to) {
  if (began) met("rename %s %s\n", last_part(from), last_part(to));
  return NEXT(rename)(from, to);
}
