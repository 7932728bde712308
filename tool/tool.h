/* What the commands of `zrv` share: exit codes, and how answers are told. */
#ifndef TOOL_H
#define TOOL_H

#include "driver.h"
#include "options.h"

enum { EXIT_DONE = 0, EXIT_REFUSED = 1, EXIT_USAGE = 2, EXIT_FILES = 3, EXIT_BUSY = 4 };

#define COUNT(array) (sizeof(array) / sizeof *(array))
#define STORES_OPTION {.name = "stores", .kind = OPTION_NUMBER, .most = UINT32_MAX, .number = ZRV_ALL_STORES}
#define WAIT_OPTION {.name = "wait", .kind = OPTION_MAYBE_NUMBER, .most = UINT32_MAX, .number = WAIT_FOREVER}

/* The words of a command read, its own and --wait, and its shelf opened; 0, or the exit code after the reason was told. After any of them close_drives is due.
 * A command whose call only reads shares the shelf with others of that sort; one that changes it by no call excludes them. */
int begin_call(enum call_kind kind, int argc, char **argv, struct command_option *options, size_t count, struct driver *driver);
int begin_change(int argc, char **argv, struct command_option *options, size_t count, struct driver *driver);

/* How a shelf is opened, with --wait as it was given. */
struct opening opening_for(enum lock_kind lock, const char *folder, const struct command_option *wait);

/* Tells bad usage of a command, or a file that cannot be used or is in use; the exit code. */
int usage_error(const char *command, const char *format, ...) __attribute__((format(printf, 2, 3)));
int file_error(const struct message *message);

/* Tells that a duty of the host stands against a command; the exit code. */
int not_now(const struct message *message);

/* Tells what came of a call if it did not finish; the exit code. */
int tell_answer(const struct driver *driver, const struct call *call, uint32_t answer, const struct message *message);

/* Makes a storing call, saves what it left, and tells what came of it if it did not finish; the exit code. */
int store_and_save(struct driver *driver, const struct call *call);

/* "4 drives, 2 zones of 96 sectors of 64 bytes" and a new line. */
void print_size(struct geometry geometry);

/* A line for each zone of a state: its condition, pointer, generation, and who holds it by a state that knows that (NULL: none does). */
void print_zones(struct geometry geometry, const uint8_t *state, const uint8_t *holders);

/* "zone 1: open at 5 of 96 sectors, generation 1, held by host 0", without a new line. */
void print_zone(struct geometry geometry, const uint8_t *state, const uint8_t *holders, uint32_t zone);

#endif
