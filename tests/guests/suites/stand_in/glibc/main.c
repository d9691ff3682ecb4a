/* In place of the driver of glibc's tests, which runs each in a process of its own with an alarm: a guest runs it in the one. As
   there a test that recorded a failure fails whatever its status is, and also where it calls exit by itself. */
#include <stdlib.h>
#include <support/check.h>
#include <support/support.h>
#include <support/test-driver.h>
#include <unistd.h>

unsigned int test_verbose;
const char *test_dir = "/";
static _Atomic int has_failed;

void support_record_failure(void) { has_failed = 1; }

int support_record_failure_is_failed(void) { return has_failed; }

static void end(void) {
    if (has_failed) _exit(EXIT_FAILURE);
}

/* A test that is to end by a signal doesn't return. */
int support_test_main(int count, char **words, const struct test_config *config) {
    atexit(end);
    if (config->prepare_function) config->prepare_function(count, words);
    int status = config->test_function ? config->test_function() : config->test_function_argv(count, words);
    if (config->expected_signal) return EXIT_FAILURE;
    if (status == config->expected_status) return EXIT_SUCCESS;
    return status ? status : EXIT_FAILURE;
}
