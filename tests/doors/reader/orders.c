/* orders.c - types that compilers lay out alike for both byte orders; includes nothing. */
enum color { RED, GREEN = 5, BLUE = -1 };
enum small { SMALL_ONE = 1, SMALL_TWO } __attribute__((packed));
struct node;
typedef unsigned long word;
typedef int call(const struct node *, word, ...);
struct flags {
    unsigned first : 3, second : 5, : 4, third : 20;
    enum color color : 7;
    _Bool is_last : 1;
    unsigned long wide : 40;
    enum small whole : 8;
    unsigned short half : 11;
};
union either { unsigned low : 9; double number; struct flags flags; };
struct node {
    struct node *next, *const *all[3];
    signed char name[12];
    struct { short inner; union { float f; int i; }; } of[2][5];
    call *called;
    volatile word count;
    union either either;
};
struct large { char filling[9000]; struct node node; };
struct node first;
struct large large;
enum small small;
int counted(struct node *node, const union either *either, enum color color)
{
    return node->called(node->next, either->low) + color + first.of[1][2].inner;
}
