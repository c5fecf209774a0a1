/* A library to be loaded before libc's, by which a program's host does one thing wrong: what WRONG_HOST names, as `CALL KIND WAY`, or as one word for what
   is more than a call, and last the program's name if it is planted in that one alone. CALL is a call of the system's, KIND what the file is to which it
   is made (`any` of them), and WAY what is wrong:

     hides   the call is made, and its failure answered as if it had been done; of a reading as the end, of a look or an opening as absence
     skips   the call isn't made, and answered as if it had been done
     others  what only this call knows, below

   tests/wrong_hosts has the table of what is planted so. */
#define _GNU_SOURCE
#include <dlfcn.h>
#include <errno.h>
#include <fcntl.h>
#include <limits.h>
#include <stdio.h>
#include <stdlib.h>
#include <string.h>
#include <sys/file.h>
#include <sys/mman.h>
#include <sys/stat.h>
#include <sys/syscall.h>
#include <sys/types.h>
#include <sys/wait.h>
#include <time.h>
#include <unistd.h>

#define REAL(name) ((__typeof__(&name))real(#name))
#define FILES 1024

static char planted[128], call_of[40], kind_of_file[32], way_of[40], program_of[32];
static char token[17], last_call[32], last_kind[32];
/* The lock that this run has put, and the file that it locks, as they stood then. */
static struct { char lock[PATH_MAX], file[PATH_MAX]; int is_absent; struct statx found, lock_found; } own;
/* Locks of which the first look has said that none stands. */
static struct { char path[PATH_MAX]; } free_locks[16];
static int free_count;
static struct { int has; struct statx found; } opened[FILES];
static int is_ready;

static void *real(const char *name) {
  void *found = dlsym(RTLD_NEXT, name);
  if (!found) abort();
  return found;
}

/* Programs that this one runs have hosts of their own. */
__attribute__((constructor)) static void begin(void) {
  const char *said = getenv("WRONG_HOST");
  char *wait;
  if (is_ready) return;
  is_ready = 1;
  if (said) snprintf(planted, sizeof planted, "%s", said);
  sscanf(planted, "%39s %31s %39s %31s", call_of, kind_of_file, way_of, program_of);
  if (program_of[0] && strcmp(program_of, program_invocation_short_name)) planted[0] = call_of[0] = 0;
  unsetenv("WRONG_HOST");
  unsetenv("LD_PRELOAD");
  wait = getenv("MAILX_WAIT");
  if (wait && !strcmp(planted, "wait-in-minutes")) {
    char longer[32];
    snprintf(longer, sizeof longer, "%ld", atol(wait) * 60);
    setenv("MAILX_WAIT", longer, 1);
  }
  if (wait && !strcmp(planted, "wait-in-tenths")) {
    char shorter[32];
    snprintf(shorter, sizeof shorter, "%ld", atol(wait) / 10);
    setenv("MAILX_WAIT", shorter, 1);
  }
  if (!strcmp(planted, "wait-unset-is-none") && !wait) setenv("MAILX_WAIT", "0", 1);
}

static int is(const char *word) { return begin(), !strcmp(planted, word); }

/* Whether a name ends with a mark and the 16 digits of a token. */
static int has_token(const char *path, const char *mark) {
  size_t length = strlen(path), front = strlen(mark) + 16;
  return length > front && !strncmp(path + length - front, mark, strlen(mark)) && strspn(path + length - 16, "0123456789abcdef") == 16;
}

static int ends(const char *path, const char *end) {
  size_t length = strlen(path), behind = strlen(end);
  return length >= behind && !strcmp(path + length - behind, end);
}

/* What a file is, by its path: `beside` is a lock's second name, `begun` a record that isn't in place yet, `input` that of a program, `text` what an editor is
   given, `stream` the input or an output, and `mail` all that has no name of its own. */
static const char *kind(const char *path) {
  struct stat found;
  int before = errno, is_folder = !stat(path, &found) && S_ISDIR(found.st_mode);
  errno = before;
  if (is_folder) return "folder";
  if (!strncmp(path, "/proc/", 6) && strncmp(path, "/proc/self/fd/", 14)) return "system";
  if (!strncmp(path, "/etc/", 5) || !strncmp(path, "/dev/", 5)) return "system";
  if (!strcmp(path, "stream") || !strncmp(path, "pipe:", 5)) return path[0] == 's' ? "stream" : "pipe";
  if (ends(path, ".commit.new")) return "begun";
  if (ends(path, ".commit")) return "record";
  if (ends(path, ".right")) return "right";
  if (ends(path, ".lock")) return "lock";
  if (has_token(path, ".lock.mx")) return "beside";
  if (has_token(path, ".mx")) return "staged";
  if (strstr(path, ".mailx.in.")) return "input";
  if (strstr(path, ".mailx.edit.")) return "text";
  return "mail";
}

/* The path of an open file. */
static const char *path_of(int file) {
  static char path[PATH_MAX];
  char name[64];
  ssize_t length;
  int before = errno;
  if (file <= STDERR_FILENO) return "stream";
  snprintf(name, sizeof name, "/proc/self/fd/%d", file);
  length = REAL(readlink)(name, path, sizeof path - 1);
  errno = before;
  path[length < 0 ? 0 : length] = 0;
  if (ends(path, " (deleted)")) path[strlen(path) - 10] = 0;
  return path;
}

/* Whether what is planted is planted in such a call. */
static int fits(const char *call, const char *path) {
  begin();
  return !strcmp(call, call_of) && (!strcmp(kind_of_file, "any") || !strcmp(kind_of_file, kind(path)));
}

static int way(const char *word) { return !strcmp(way_of, word); }

/* What was done last to which kind of file: `fsync folder after-fsync-staged` is the sync of a folder behind that of what was staged in it. */
static void note(const char *call, const char *path) {
  snprintf(last_call, sizeof last_call, "%s", call);
  snprintf(last_kind, sizeof last_kind, "%s", kind(path));
}

static int is_after(void) {
  char wanted[80];
  snprintf(wanted, sizeof wanted, "after-%s-%s", last_call, last_kind);
  return way(wanted);
}

int fsync(int file) {
  const char *path = path_of(file);
  int result, is_planted = fits("fsync", path);
  if (is_planted && (way("skips") || is_after())) return 0;
  result = REAL(fsync)(file);
  note("fsync", path);
  return result < 0 && is_planted && way("hides") ? 0 : result;
}

ssize_t write(int file, const void *bytes, size_t count) {
  const char *path = path_of(file);
  int is_planted = fits("write", path);
  ssize_t result = is_planted && way("skips") ? (ssize_t)count : REAL(write)(file, bytes, count);
  if (is_planted && way("hides") && result < 0) return count;
  if (is_planted && way("shortens") && result >= 0) return count;
  if (is_planted && way("drops") && result < 0 && (errno == EINTR || errno == EAGAIN)) return count;
  return result;
}

ssize_t read(int file, void *bytes, size_t count) {
  const char *path = path_of(file);
  int is_planted = fits("read", path);
  ssize_t result = REAL(read)(file, bytes, count);
  if (is_planted && way("hides") && result < 0) return 0;
  if (is_planted && way("ends-early") && result < 0 && (errno == EINTR || errno == EAGAIN)) return 0;
  if (is_planted && way("owns") && result > 0 && result <= 16 && token[0] && count > 16) return memcpy(bytes, token, 16), 16;
  return result;
}

static int named(const char *call, const char *path, int result) {
  int is_planted = fits(call, path);
  note(call, path);
  return result < 0 && is_planted && way("hides") ? 0 : result;
}

/* A copy of a file under another name, in the place of what stands there or where nothing stands. */
static int copy(const char *from, const char *to, int how) {
  char bytes[4096];
  ssize_t count;
  int in = REAL(open)(from, O_RDONLY), out = in < 0 ? -1 : REAL(open)(to, O_WRONLY | O_CREAT | how, 0600);
  while (out >= 0 && (count = REAL(read)(in, bytes, sizeof bytes)) > 0)
    if (REAL(write)(out, bytes, count) != count) break;
  if (in >= 0) close(in);
  if (out >= 0) close(out);
  return out < 0 ? -1 : 0;
}

int rename(const char *from, const char *to) {
  if (fits("rename", to) && way("skips")) return 0;
  if (fits("rename", to) && way("copies")) return copy(from, to, O_TRUNC) || REAL(unlink)(from) ? -1 : 0;
  return named("rename", to, REAL(rename)(from, to));
}

static int look(const char *path, struct statx *found) {
  return REAL(statx)(AT_FDCWD, path, AT_SYMLINK_NOFOLLOW, STATX_BASIC_STATS | STATX_BTIME, found);
}

int link(const char *from, const char *to) {
  int is_planted = fits("link", to), result;
  if (is_planted && way("replaces")) result = REAL(rename)(from, to);
  else result = is_planted && way("copies") ? copy(from, to, O_EXCL) : REAL(link)(from, to);
  if (!result && ends(to, ".lock")) {
    snprintf(own.lock, sizeof own.lock, "%s", to);
    snprintf(own.file, sizeof own.file, "%.*s", (int)strlen(to) - 5, to);
    own.is_absent = look(own.file, &own.found) < 0;
    look(own.lock, &own.lock_found);
    free_count = 0;
  }
  return named("link", to, result);
}

int unlink(const char *path) {
  if (fits("unlink", path) && way("skips")) return 0;
  if (!strcmp(path, own.lock)) own.lock[0] = own.file[0] = 0;
  return named("unlink", path, REAL(unlink)(path));
}

int ftruncate(int file, off_t length) {
  const char *path = path_of(file);
  if (fits("ftruncate", path) && way("skips")) return 0;
  return named("ftruncate", path, REAL(ftruncate)(file, length));
}

int fchmod(int file, mode_t mode) {
  const char *path = path_of(file);
  if (fits("fchmod", path) && way("skips")) return 0;
  return named("fchmod", path, REAL(fchmod)(file, mode));
}

int fchown(int file, uid_t owner, gid_t group) {
  const char *path = path_of(file);
  if (fits("fchown", path) && way("skips")) return 0;
  return named("fchown", path, REAL(fchown)(file, owner, group));
}

int flock(int file, int how) {
  const char *path = path_of(file);
  if (fits("flock", path) && way("skips")) return 0;
  if (fits("flock", path) && way("shares")) how = (how & ~LOCK_EX) | LOCK_SH;
  return named("flock", path, REAL(flock)(file, how));
}

int open(const char *path, int flags, ...) {
  __builtin_va_list rest;
  mode_t mode;
  int file, is_planted = fits("open", path);
  __builtin_va_start(rest, flags);
  mode = flags & O_CREAT ? __builtin_va_arg(rest, mode_t) : 0;
  __builtin_va_end(rest);
  if (is_planted && way("publishes")) mode |= 0066;
  file = REAL(open)(is_planted && way("elsewhere") ? "." : path, flags, mode);
  if (file < 0 && is("own-lock-stands") && !strcmp(path, own.lock)) {
    file = memfd_create("lock", 0);
    if (REAL(write)(file, token, 16) == 16) lseek(file, 0, SEEK_SET);
  }
  if (file >= 0 && file < FILES) opened[file].has = 0;
  if (file < 0 && is_planted && way("hides") && !(flags & O_CREAT)) errno = ENOENT;
  return file;
}

static void without_nanoseconds(struct statx *found) { found->stx_mtime.tv_nsec = found->stx_ctime.tv_nsec = 0; }

int statx(int folder, const char *restrict path, int flags, unsigned int mask, struct statx *restrict found) {
  const char *whole = flags & AT_EMPTY_PATH ? path_of(folder) : path;
  int is_planted = fits("statx", whole), result = REAL(statx)(folder, path, flags, mask, found);
  if (is_planted && way("remembers")) {
    for (int k = 0; k < free_count; k++) if (!strcmp(free_locks[k].path, path)) return errno = ENOENT, -1;
    if (result < 0 && errno == ENOENT && free_count < 16) snprintf(free_locks[free_count++].path, PATH_MAX, "%s", path);
  }
  if (result < 0) {
    if (is_planted && way("hides") && errno != ENOENT) errno = ENOENT;
    if (is("own-lock-stands") && !strcmp(path, own.lock)) return *found = own.lock_found, 0;
    return result;
  }
  if (is_planted && way("hides-all")) return errno = ENOENT, -1;
  if (is_planted && way("settable")) found->stx_ctime = found->stx_mtime;
  if (is_planted && way("seconds")) without_nanoseconds(found);
  if (is_planted && way("single")) found->stx_nlink = 1;
  if (is_planted && way("own")) found->stx_uid = geteuid();
  if (is_planted && way("regular")) found->stx_mode = (found->stx_mode & ~S_IFMT) | S_IFREG;
  if (is_planted && way("steady") && flags & AT_EMPTY_PATH && folder >= 0 && folder < FILES) {
    if (opened[folder].has) *found = opened[folder].found;
    opened[folder].found = *found;
    opened[folder].has = 1;
  }
  if (own.file[0] && !strcmp(path, own.file)) {
    if (is("locked-is-unchanged") && !own.is_absent) *found = own.found;
    if (is("locked-stays-absent") && own.is_absent) return errno = ENOENT, -1;
  }
  return result;
}

pid_t waitpid(pid_t child, int *status, int options) {
  pid_t result = REAL(waitpid)(child, status, options);
  if (result > 0 && status && WIFSIGNALED(*status) && is("killed-is-done")) *status = 0;
  if (result > 0 && status && WIFEXITED(*status) && WEXITSTATUS(*status) && is("failed-is-done")) *status = 0;
  return result;
}

int getentropy(void *bytes, size_t count) {
  int result = REAL(getentropy)(bytes, count);
  unsigned char *digits = bytes;
  size_t k;
  if (count == 8 && is("token-of-32-bits")) memset(digits + 4, 0, 4);
  if (count == 8 && is("token-of-63-bits")) digits[7] &= 0x7f;
  if (count == 8 && is("token-of-one-digit")) for (k = 1; k < 8; k++) digits[k] = digits[0];
  if (count == 8 && is("token-of-time")) {
    time_t now = time(NULL);
    memset(digits, 0, 8);
    memcpy(digits, &now, 8);
  }
  if (result < 0 && is("token-without-entropy")) result = 0;
  if (count == 8) for (k = 0; k < 8; k++) snprintf(token + 2 * k, 3, "%02x", digits[7 - k]);
  return result;
}

/* A taking of memory may ask for the time, in the midst of dlsym. */
int clock_gettime(clockid_t clock, struct timespec *now) {
  int result = (int)syscall(SYS_clock_gettime, clock, now);
  if (!result && clock == CLOCK_MONOTONIC && is("clock-runs-ahead")) now->tv_sec = now->tv_sec * 100 + now->tv_nsec / 10000000;
  return result;
}
