/* Valid dictionaries that were made to be expensive: questions about them take time linear in their
 * bytes.
 *
 * usage: hostile               checks these cases with fixed numbers, and a few more cases
 *        hostile circle TYPES  compares two arrays in a cycle of TYPES - 1 arrays
 *        hostile names NAMES   lists NAMES enumerators, whose names have the same hash
 *        hostile visit ROWS    fills ROWS rows of a visit that has more than anybody could store
 *
 * With arguments only the answer is checked; the cost is measured from outside, for a number and
 * for twice that number.
 */
#include "ctfd_libctf.h"

#include "common.h"
#include "made.h"

/* The offset in the header of the reference to the parent's name. */
#define PARNAME 8
#define ROOT 0x400
#define INTEGER (CTF_K_INTEGER << 11 | ROOT)
#define ARRAY (CTF_K_ARRAY << 11 | ROOT)
#define ENUM (CTF_K_ENUM << 11 | ROOT)
#define STRUCT (CTF_K_STRUCT << 11 | ROOT)

static void put_integer(struct made *made, uint32_t name)
{
    put_head(made, name, INTEGER, 4);
    put32(made, 1u << 24 | 32);
}

static void put_array(struct made *made, unsigned contents, unsigned index)
{
    put_head(made, 0, ARRAY, 0);
    put16(made, contents);
    put16(made, index);
    put32(made, 2);
}

static ctf_file_t *opened(const struct made *made)
{
    int error = 0;
    ctf_file_t *fp = open_made(made, &error);
    if (fp != NULL)
        return fp;
    puts(ctf_errmsg(error));
    exit(2);
}

/* Compares two arrays, each of which is its own index type: 100 bytes. */
static void compare_with_themselves(void)
{
    static const char strings[] = "\0long long unsigned";
    uint8_t place[128];
    struct made made = { place, 0, 3 };
    ctf_file_t *left, *right;
    begin_made(&made);
    put_integer(&made, 1);
    put_array(&made, 1, 2);
    put_array(&made, 1, 3);
    end_made(&made, strings, sizeof strings);
    CHECK(made.len == 100);
    left = opened(&made);
    right = opened(&made);
    CHECK(ctf_type_compat(left, 2, left, 3) == 1);
    CHECK(ctf_type_compat(left, 2, right, 2) == 1);
    CHECK(ctf_type_compat(left, 2, right, 3) == 1);
    CHECK(ctf_type_compat(left, 1, right, 2) == 0);
    ctf_close(left);
    ctf_close(right);
}

/* The contents and index of each array are the previous array: there are 2^500 paths. */
static void compare_doubled(void)
{
    static const char strings[] = "\0int";
    uint8_t place[16384];
    struct made made = { place, 0, 501 };
    ctf_file_t *left, *right;
    unsigned i;
    begin_made(&made);
    put_integer(&made, 1);
    for (i = 1; i < made.types; i++)
        put_array(&made, i, i);
    end_made(&made, strings, sizeof strings);
    left = opened(&made);
    right = opened(&made);
    CHECK(ctf_type_compat(left, 501, right, 501) == 1);
    CHECK(ctf_type_compat(left, 501, right, 500) == 0);
    CHECK(ctf_type_compat(left, 501, left, 500) == 0);
    ctf_close(left);
    ctf_close(right);
}

/* A cycle: the index of each array is the next array, and that of the last one is the first. */
static int compare_circle(unsigned types)
{
    static const char strings[] = "\0int";
    struct made made = { (uint8_t *)malloc(types * 16 + 64), 0, types };
    ctf_file_t *left, *right;
    unsigned i;
    int same;
    if (made.at == NULL)
        return 2;
    begin_made(&made);
    put_integer(&made, 1);
    for (i = 2; i <= types; i++)
        put_array(&made, 1, i < types ? i + 1 : 2);
    end_made(&made, strings, sizeof strings);
    left = opened(&made);
    right = opened(&made);
    same = ctf_type_compat(left, 2, left, 3) && ctf_type_compat(left, 2, right, types / 2);
    ctf_close(left);
    ctf_close(right);
    free(made.at);
    return !same;
}

/* ---- names with the same hash, for hash = hash * 33 ^ byte, beginning at 5381 */

#define STEPS 16
#define LETTERS 96

static uint64_t stepped(uint64_t hash, const char *two)
{
    hash = hash * 33 ^ (unsigned char)two[0];
    return hash * 33 ^ (unsigned char)two[1];
}

/* The two bytes with this number, which is below LETTERS squared. */
static void two_of(unsigned number, char *two)
{
    two[0] = (char)(' ' + number / LETTERS);
    two[1] = (char)(' ' + number % LETTERS);
}

/* Finds two pairs of bytes that give the same hash after `hash`, and returns it. */
static uint64_t find_pairs(uint64_t hash, char pairs[2][2])
{
    unsigned l, r;
    for (l = 0; l < LETTERS * LETTERS; l++) {
        two_of(l, pairs[0]);
        for (r = l + 1; r < LETTERS * LETTERS; r++) {
            two_of(r, pairs[1]);
            if (stepped(hash, pairs[0]) == stepped(hash, pairs[1]))
                return stepped(hash, pairs[0]);
        }
    }
    exit(2);
}

/* Writes as many of these names, each with a zero byte. */
static void put_names(char *strings, unsigned names)
{
    char pairs[STEPS][2][2];
    uint64_t hash = 5381;
    unsigned i, step;
    for (step = 0; step < STEPS; step++)
        hash = find_pairs(hash, pairs[step]);
    for (i = 0; i < names; i++) {
        for (step = 0; step < STEPS; step++, strings += 2)
            memcpy(strings, pairs[step][i >> step & 1], 2);
        *strings++ = '\0';
    }
}

static int on_enumerator(const char *name, int value, void *arg)
{
    *(unsigned *)arg += name[0] != '\0' && value == 7;
    return 0;
}

static int list_names(unsigned names)
{
    unsigned i, types = (names + CTF_MAX_VLEN - 1) / CTF_MAX_VLEN, listed = 0;
    size_t len = 1 + (2 * STEPS + 1) * (size_t)names;
    char *strings = (char *)calloc(1, len);
    struct made made = { (uint8_t *)malloc(64 + 16 * names + len), 0, types };
    ctf_file_t *fp;
    if (strings == NULL || made.at == NULL || names > 1 << STEPS)
        return 2;
    put_names(strings + 1, names);
    begin_made(&made);
    for (i = 0; i < names; i++) {
        unsigned left = names - i < CTF_MAX_VLEN ? names - i : CTF_MAX_VLEN;
        if (i % CTF_MAX_VLEN == 0)
            put_head(&made, 0, ENUM | left, 4);
        put32(&made, 1 + (2 * STEPS + 1) * i);
        put32(&made, 7);
    }
    end_made(&made, strings, len);
    fp = opened(&made);
    for (i = 1; i <= types; i++)
        (void)ctf_enum_iter(fp, (ctf_id_t)i, on_enumerator, &listed);
    ctf_close(fp);
    free(strings);
    free(made.at);
    return listed != names;
}

/* Adds a struct with two members, both of the previous type. */
static void put_pair(struct made *made)
{
    unsigned i;
    put_head(made, 0, STRUCT | 2, 0);
    for (i = 0; i < 2; i++) {
        put32(made, 0);
        put16(made, made->types);
        put16(made, 8 * i);
    }
    made->types++;
}

/* 512 nested structs, each twice in the next: 2^513 - 1 rows, of which the first are filled. */
static int visit_doubled(unsigned rows_len)
{
    enum {
        DEEP = 512
    };
    static const char strings[] = "\0int";
    struct made made = { (uint8_t *)malloc(100 + 24 * DEEP), 0, 1 };
    struct ctfd_visit_row *rows = (struct ctfd_visit_row *)calloc(rows_len, sizeof *rows);
    struct ctfd types = CTFD_NONE;
    uint64_t place, count = 0;
    unsigned i, wrong = 0;
    if (made.at == NULL || rows == NULL)
        exit(2);
    begin_made(&made);
    put_integer(&made, 1);
    for (i = 0; i < DEEP; i++)
        put_pair(&made);
    end_made(&made, strings, sizeof strings);
    wrong += ctfd_open(&types, made.at, made.len, "", 0, "", 0, false, false, false, &place) !=
        CTFD_OK;
    wrong += ctfd_visit(&types, DEEP + 1, rows, rows_len, &count) != CTFD_OK;
    wrong += count != rows_len + 1ull;
    for (i = 0; i < rows_len && i <= DEEP; i++)
        wrong += rows[i].type != DEEP + 1 - i || rows[i].depth != i || rows[i].offset != 0;
    for (; i < rows_len; i++)
        wrong += rows[i].type + rows[i].depth != DEEP + 1;
    ctfd_close(&types);
    free(rows);
    free(made.at);
    return wrong != 0;
}

/* Adds a struct of `bytes` bytes with one member, of type `t`. */
static void put_around(struct made *made, unsigned t, unsigned bytes)
{
    put_head(made, 0, STRUCT | 1, bytes);
    put32(made, 1);
    put16(made, t);
    put16(made, 0);
}

/* Checks that each visited type is nested in the previous one, and counts the depth. */
static int on_depth(const char *name, ctf_id_t type, ulong_t offset, int depth, void *arg)
{
    int *deepest = (int *)arg;
    CHECK(type != 0 && offset == 0 && depth == *deepest + 1);
    CHECK(strcmp(name, depth == 0 ? "" : "int") == 0);
    *deepest = depth;
    return 0;
}

/* 512 nested structs of a child, around 512 of its parent, around an integer. */
static void visit_deep_pair(void)
{
    enum {
        DEEP = 512
    };
    static const char strings[] = "\0int";
    struct made parent = { (uint8_t *)malloc(100 + 16 * DEEP), 0, 1 };
    struct made child = { (uint8_t *)malloc(100 + 16 * DEEP), 0, 1 };
    ctf_file_t *own, *lent;
    unsigned i;
    int deepest = -1;
    if (parent.at == NULL || child.at == NULL)
        exit(2);
    begin_made(&parent);
    put_integer(&parent, 1);
    for (i = 0; i < DEEP; i++)
        put_around(&parent, i + 1, 4);
    end_made(&parent, strings, sizeof strings);
    begin_made(&child);
    for (i = 0; i < DEEP; i++)
        put_around(&child, i == 0 ? DEEP + 1 : 0x8000 + i, 4);
    end_made(&child, strings, sizeof strings);
    child.at[PARNAME] = 1;
    lent = opened(&parent);
    own = opened(&child);
    CHECK(ctf_import(own, lent) == 0);
    CHECK(ctf_type_visit(own, 0x8000 + DEEP, on_depth, &deepest) == 0);
    CHECK(deepest == 2 * DEEP);
    ctf_close(own);
    ctf_close(lent);
    free(parent.at);
    free(child.at);
}

int main(int argc, char **argv)
{
    unsigned count = argc > 2 ? (unsigned)strtoul(argv[2], NULL, 10) : 0;
    if (argc > 2 && strcmp(argv[1], "visit") == 0)
        return visit_doubled(count);
    if (argc > 2)
        return strcmp(argv[1], "circle") == 0 ? compare_circle(count) : list_names(count);
    compare_with_themselves();
    compare_doubled();
    CHECK(compare_circle(32766) == 0);
    CHECK(list_names(51150) == 0);
    visit_deep_pair();
    CHECK(visit_doubled(1) == 0);
    CHECK(visit_doubled(513) == 0);
    CHECK(visit_doubled(100000) == 0);
    return counted("hostile");
}
