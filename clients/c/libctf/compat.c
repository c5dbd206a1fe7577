/* compat.c - whether two types are the same to C.
 *
 * They are the same if all pairs of types are that a walk along pointers, and along the contents
 * and indexes of arrays, meets. An array's index may lead back to the array, so the pairs met are
 * joined into classes, and are not visited again: each visit joins two classes, and there are no
 * more classes than types.
 */
#include "private.h"

#include <stdlib.h>
#include <string.h>

#define SIDE 65536

struct pair {
    uint16_t left, right;
};

struct walk {
    ctf_file_t *lfp, *rfp;
    struct pair *waiting;
    size_t waiting_len, waiting_room;
    uint32_t *classes; /* of types of the left, then of the right; 0 is its own */
};

static bool fails(const struct walk *walk)
{
    (void)ctfd__fail(walk->lfp, CTFD_MEMORY);
    return false;
}

/* Adds a pair to those that wait; false if there is no memory. */
static bool wait_for(struct walk *walk, uint16_t left, uint16_t right)
{
    if (walk->waiting_len == walk->waiting_room) {
        size_t room = walk->waiting_room == 0 ? 64 : 2 * walk->waiting_room;
        struct pair *more = (struct pair *)realloc(walk->waiting, room * sizeof *more);
        if (more == NULL)
            return fails(walk);
        walk->waiting = more;
        walk->waiting_room = room;
    }
    walk->waiting[walk->waiting_len].left = left;
    walk->waiting[walk->waiting_len++].right = right;
    return true;
}

/* Union-find root, with path halving. */
static uint32_t first_of(uint32_t *classes, uint32_t type)
{
    while (classes[type] != 0) {
        if (classes[classes[type]] != 0)
            classes[type] = classes[classes[type]];
        type = classes[type];
    }
    return type;
}

/* Joins the classes of two arrays. If they were in different classes, their parts are to be
 * compared too. */
static bool join(struct walk *walk, struct pair pair, const struct ctfd_array *left,
    const struct ctfd_array *right)
{
    uint32_t a, b;
    if (walk->classes == NULL) {
        walk->classes = (uint32_t *)calloc(2 * SIDE, sizeof *walk->classes);
        if (walk->classes == NULL)
            return fails(walk);
    }
    a = first_of(walk->classes, pair.left);
    b = first_of(walk->classes, (walk->lfp == walk->rfp ? 0u : SIDE) + pair.right);
    if (a == b)
        return true;
    walk->classes[a > b ? a : b] = a > b ? b : a;
    return wait_for(walk, left->contents, right->contents) &&
        wait_for(walk, left->index, right->index);
}

static bool same_names(const struct walk *walk, struct pair pair)
{
    const char *left = ctfd__declared(walk->lfp, pair.left);
    const char *right = ctfd__declared(walk->rfp, pair.right);
    return left != NULL && right != NULL && strcmp(left, right) == 0;
}

static bool same_encodings(const struct walk *walk, struct pair pair)
{
    struct ctfd_encoding left, right;
    return ctfd__done(walk->lfp, ctfd__encoding_of(walk->lfp, pair.left, &left)) == 0 &&
        ctfd__done(walk->rfp, ctfd__encoding_of(walk->rfp, pair.right, &right)) == 0 &&
        left.encoding == right.encoding && left.offset == right.offset && left.bits == right.bits;
}

static bool same_arrays(struct walk *walk, struct pair pair)
{
    struct ctfd_array left, right;
    return ctfd__done(walk->lfp, ctfd__array_of(walk->lfp, pair.left, &left)) == 0 &&
        ctfd__done(walk->rfp, ctfd__array_of(walk->rfp, pair.right, &right)) == 0 &&
        left.count == right.count && join(walk, pair, &left, &right);
}

static bool same_pointers(struct walk *walk, struct pair pair)
{
    uint16_t left = 0, right = 0;
    return ctfd__done(walk->lfp, ctfd__reference_of(walk->lfp, pair.left, &left)) == 0 &&
        ctfd__done(walk->rfp, ctfd__reference_of(walk->rfp, pair.right, &right)) == 0 &&
        wait_for(walk, left, right);
}

/* Compares two types themselves; the types that they refer to are compared later. */
static bool alike(struct walk *walk, struct pair pair)
{
    uint32_t left = 0, right = 0;
    if (ctfd__done(walk->lfp, ctfd__kind_of(walk->lfp, pair.left, &left)) != 0 ||
        ctfd__done(walk->rfp, ctfd__kind_of(walk->rfp, pair.right, &right)) != 0 || left != right ||
        !same_names(walk, pair))
        return false;
    switch (left) {
    case CTFD_INTEGER:
    case CTFD_FLOAT: return same_encodings(walk, pair);
    case CTFD_POINTER: return same_pointers(walk, pair);
    case CTFD_ARRAY: return same_arrays(walk, pair);
    case CTFD_STRUCT:
    case CTFD_UNION:
        return ctf_type_size(walk->lfp, pair.left) == ctf_type_size(walk->rfp, pair.right);
    default: return left == CTFD_ENUM || left == CTFD_FORWARD;
    }
}

/* Compares a pair of types; those that they refer to are compared later. Void, which is no type, is
 * the same only as void. */
static bool met(struct walk *walk, struct pair pair)
{
    uint16_t left = 0, right = 0;
    if (ctf_type_cmp(walk->lfp, pair.left, walk->rfp, pair.right) == 0)
        return true;
    if ((pair.left != 0 &&
            ctfd__done(walk->lfp, ctfd__resolution_of(walk->lfp, pair.left, &left))) ||
        (pair.right != 0 &&
            ctfd__done(walk->rfp, ctfd__resolution_of(walk->rfp, pair.right, &right))))
        return false;
    pair.left = left;
    pair.right = right;
    if (left == 0 || right == 0)
        return left == right;
    return ctf_type_cmp(walk->lfp, left, walk->rfp, right) == 0 || alike(walk, pair);
}

int ctf_type_compat(ctf_file_t *lfp, ctf_id_t ltype, ctf_file_t *rfp, ctf_id_t rtype)
{
    struct walk walk = { lfp, rfp, NULL, 0, 0, NULL };
    bool same;
    if (ctf_type_cmp(lfp, ltype, rfp, rtype) == 0)
        return 1;
    if (!ctfd__is_type(lfp, ltype) || !ctfd__is_type(rfp, rtype))
        return 0;
    same = wait_for(&walk, (uint16_t)ltype, (uint16_t)rtype);
    while (same && walk.waiting_len != 0)
        same = met(&walk, walk.waiting[--walk.waiting_len]);
    free(walk.waiting);
    free(walk.classes);
    return same;
}
