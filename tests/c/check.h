/* What the tests of the C interface share: a check that counts, and giving an input with plain C strings. */
#ifndef CHECK_H
#define CHECK_H

#include <stdio.h>
#include <string.h>

#include "hawsermole.h"

static unsigned checks, failures;

#define CHECK(fact) check((fact) ? 1 : 0, __FILE__, __LINE__, #fact)

static void check(int holds, const char *file, int line, const char *fact)
{
    checks++;
    if (!holds) {
        failures++;
        fprintf(stderr, "%s:%d: not so: %s\n", file, line, fact);
    }
}

/* The last line of a test, and its exit status. */
static int result(const char *test)
{
    printf("%s: %u checks, %u failed\n", test, checks, failures);
    return failures != 0 || checks == 0;
}

/* A text's bytes; in C++ without an old cast. */
#ifdef __cplusplus
#define BYTES(text) reinterpret_cast<const uint8_t *>(text)
#else
#define BYTES(text) ((const uint8_t *)(text))
#endif

static inline uint32_t give(hm_tool *tool, hm_reports *reports, uint32_t number, uint32_t port, uint32_t value,
                            const char *name)
{
    return hm_step(tool, reports, number, port, value, BYTES(name), strlen(name), HM_NOTHING, 0);
}

/* Whether a name of a struct is this text with zeros after it. */
static inline int is_name(const uint8_t *bytes, const char *text)
{
    uint8_t padded[HM_NAME_BYTES] = {0};
    memcpy(padded, text, strlen(text));
    return memcmp(bytes, padded, HM_NAME_BYTES) == 0;
}

#endif
