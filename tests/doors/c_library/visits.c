/* Checks the rows of a visit in a child, without its parent and with it.
 *
 * usage: visits
 */
#include "common.h"

/* The CTF section of a dictionary made as a draft. */
static struct section {
    uint8_t at[1024];
    uint64_t len;
} base, child;

static struct ctfd types = CTFD_NONE, parent = CTFD_NONE;

/* Makes struct base { int x, y; } and in the child struct pair { struct base first, second; }. */
static void make(void)
{
    struct ctfd low = CTFD_NONE, high = CTFD_NONE;
    uint64_t place, count, at;
    uint16_t number, t;
    CHECK(ctfd_create(&low, false, &place) == CTFD_OK);
    CHECK(ctfd_add_integer(&low, "int", 3, true, 1, 0, 32, 4, &number) == CTFD_OK);
    CHECK(ctfd_add_struct(&low, "base", 4, true, 8, &t) == CTFD_OK && t == 2);
    CHECK(ctfd_add_member(&low, t, "x", 1, number, true, 0, &at) == CTFD_OK);
    CHECK(ctfd_add_member(&low, t, "y", 1, number, true, 32, &at) == CTFD_OK);
    CHECK(ctfd_update(&low, &count, &place) == CTFD_OK);
    CHECK(ctfd_create_child(&high, &low, "base", 4, "", 0, &place) == CTFD_OK);
    CHECK(ctfd_add_struct(&high, "pair", 4, true, 16, &t) == CTFD_OK && t == 32769);
    CHECK(ctfd_add_member(&high, t, "first", 5, 2, true, 0, &at) == CTFD_OK);
    CHECK(ctfd_add_member(&high, t, "second", 6, 2, true, 64, &at) == CTFD_OK);
    CHECK(ctfd_update(&high, &count, &place) == CTFD_OK);
    CHECK(ctfd_bytes(&low, 0, base.at, sizeof base.at, &base.len) == CTFD_OK);
    CHECK(ctfd_bytes(&high, 0, child.at, sizeof child.at, &child.len) == CTFD_OK);
    ctfd_close(&high);
    ctfd_close(&low);
}

static void open_section(struct ctfd *handle, const struct section *of)
{
    uint64_t place;
    CHECK(ctfd_open(handle, of->at, of->len, "", 0, "", 0, false, false, false, &place) == CTFD_OK);
}

/* Whether the rows of a visit are as wanted, each printed as its depth, its offset and its name. */
static bool is_visited(uint16_t t, const char *wanted)
{
    struct ctfd_visit_row rows[8];
    char seen[256] = "";
    uint64_t count = 0, i;
    if (ctfd_visit(&types, t, rows, 8, &count) != CTFD_OK || count > 8)
        return false;
    for (i = 0; i < count; i++) {
        const uint8_t *lists = rows[i].holder < 32769 ? base.at : child.at;
        uint16_t to = 0;
        if (ctfd_resolve(&types, rows[i].type, &to) != CTFD_OK)
            to = 0;
        CHECK(rows[i].stands_for == to);
        sprintf(seen + strlen(seen), "%u %llu %s\n", rows[i].depth,
            (unsigned long long)rows[i].offset,
            rows[i].name_list == CTFD_IN_SECTION ? (const char *)lists + rows[i].name_at : "-");
    }
    return strcmp(seen, wanted) == 0;
}

int main(void)
{
    struct ctfd_visit_row row;
    uint64_t place, count = 7;
    make();
    open_section(&types, &child);
    open_section(&parent, &base);
    CHECK(is_visited(32769, "0 0 -\n1 0 first\n1 64 second\n"));
    CHECK(ctfd_visit(&types, 2, &row, 1, &count) == CTFD_NO_PARENT && count == 7);
    CHECK(ctfd_import(&types, &parent, &place) == CTFD_OK);
    CHECK(is_visited(32769, "0 0 -\n1 0 first\n2 0 x\n2 32 y\n1 64 second\n2 64 x\n2 96 y\n"));
    CHECK(is_visited(2, "0 0 -\n1 0 x\n1 32 y\n"));
    CHECK(is_visited(1, "0 0 -\n"));
    CHECK(ctfd_visit(&types, 32770, &row, 1, &count) == CTFD_NO_TYPE && count == 7);
    ctfd_close(&types);
    ctfd_close(&parent);
    return counted("visits");
}
