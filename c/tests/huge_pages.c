/* A large set has huge pages if the kernel gives them on request, and none if the environment switches
 * them off. Where the kernel never gives them, or always, there is nothing to test. */
#define _DEFAULT_SOURCE
#include "holds.h"
#include "nm_set.h"

#include <stdbool.h>
#include <stdio.h>
#include <stdlib.h>
#include <string.h>

/* Whether the kernel gives huge pages on request alone. */
static bool is_on_request(void) {
    char modes[64] = "";
    FILE *file = fopen("/sys/kernel/mm/transparent_hugepage/enabled", "r");
    if (file == NULL) return false;
    bool is_read = fgets(modes, sizeof modes, file) != NULL;
    (void)fclose(file);
    return is_read && strstr(modes, "[madvise]") != NULL;
}

/* How many areas of this process are marked for huge pages. */
static unsigned marked_areas(void) {
    char line[512];
    unsigned areas = 0;
    FILE *file = fopen("/proc/self/smaps", "r");
    CHECK(file != NULL);
    while (fgets(line, sizeof line, file) != NULL)
        if (strncmp(line, "VmFlags:", 8) == 0 && strstr(line, " hg") != NULL) areas++;
    (void)fclose(file);
    return areas;
}

static unsigned areas_with_a_set(uint32_t nodes) {
    nm_handle set = NM_CLOSED_HANDLE;
    CHECK(nm_set_new(&set, nodes, 1) == NM_DONE);
    unsigned areas = marked_areas();
    CHECK(nm_drop(&set) == NM_DONE);
    return areas;
}

int main(void) {
    if (!is_on_request()) return 0;
    CHECK(unsetenv("NM_SET_HUGE_PAGES") == 0);
    CHECK(areas_with_a_set(1000) == 0);
    CHECK(areas_with_a_set(400000) > 0);
    CHECK(setenv("NM_SET_HUGE_PAGES", "0", 1) == 0);
    unsigned before = marked_areas();
    CHECK(areas_with_a_set(400000) <= before);
    return 0;
}
