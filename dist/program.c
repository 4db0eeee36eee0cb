/* The command line, the environment and errno for the program nm_stress: the functions that its
 * proved code calls beside those of alloc.c and of the C library. They are trusted, and not proved.
 */
#include <errno.h>
#include <limits.h>
#include <stddef.h>
#include <stdint.h>
#include <stdlib.h>
#include <string.h>

extern char **environ;

static char **arguments;

int64_t nm_host_arg(size_t number, char *room, size_t size);
int64_t nm_host_env(const char *name, char *room, size_t size);
int64_t nm_host_env_at(size_t number, char *room, size_t size);
int nm_host_errno(void);
void nm_host_set_errno(int error);

/* Keeps the command line. The loader of glibc calls each constructor with it, before `main`. */
__attribute__((constructor)) static void keep_arguments(int count, char **words) {
    (void)count;
    arguments = words;
}

/* Copies a text, as much of it as there is room for. Returns its length, -1 if there is no text, or
 * -2 if it does not fit. */
static int64_t copy_of(const char *text, char *room, size_t size) {
    size_t length;
    if (text == NULL) return -1;
    length = strlen(text);
    memcpy(room, text, length < size ? length : size);
    return length <= size && length <= INT64_MAX ? (int64_t)length : -2;
}

/* Returns the text of that number in a list that a null ends, or null if there are fewer. */
static const char *nth_of(char **list, size_t number) {
    size_t at = 0;
    if (list == NULL) return NULL;
    while (at < number && list[at] != NULL) at++;
    return list[at];
}

/* Copies the argument of that number: 0 is the program's name. Returns as `copy_of`. */
int64_t nm_host_arg(size_t number, char *room, size_t size) {
    return copy_of(nth_of(arguments, number), room, size);
}

/* Copies the value of a variable of the environment. Returns as `copy_of`. */
int64_t nm_host_env(const char *name, char *room, size_t size) {
    return copy_of(getenv(name), room, size);
}

/* Copies the entry of that number of the environment, as NAME=VALUE. Returns as `copy_of`. */
int64_t nm_host_env_at(size_t number, char *room, size_t size) {
    return copy_of(nth_of(environ, number), room, size);
}

int nm_host_errno(void) { return errno; }

void nm_host_set_errno(int error) { errno = error; }
