/* Units for link-time optimisation: the debug information of each function is separate from that of
   its types, and several functions refer to the types of one unit. */
struct node;
typedef int lanes __attribute__((vector_size(16)));

struct wide {
    lanes of;
    struct node *first;
    int (*next)(struct wide *, const char *);
};

#if UNIT == 1
struct node {
    struct node *next;
    union { long number; struct wide *wide; } is;
};
#define NAMED(name) one_##name
#else
#define NAMED(name) two_##name
#endif
#define KEPT __attribute__((noinline, noclone, used))

struct wide *NAMED(last);

KEPT int NAMED(first)(struct wide *wide, struct node *const *node)
{
    return wide->of[0] + (node != 0);
}

KEPT struct node *NAMED(second)(const struct wide *wide, unsigned char count)
{
    return count ? wide->first : 0;
}

KEPT struct wide NAMED(third)(struct node *node, int (*next)(struct wide *, const char *))
{
    struct wide made = { { 1, 2, 3, 4 }, node, next };
    NAMED(last) = next ? 0 : &made;
    return made;
}

#if UNIT == 1
int main(void)
{
    struct wide wide = one_third(0, 0);
    return one_first(&wide, 0) + (one_second(&wide, 1) != 0);
}
#endif
