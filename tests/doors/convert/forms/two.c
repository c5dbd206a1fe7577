#include "shared.h"
struct own { struct node *node; union word words[2]; struct odd odd; } own;
const char *const names[] = {"one", "two", 0};
__attribute__((noinline)) static int local(int a, byte *at) { return a - *at; }

struct node *found(struct node **list, int (*is)(const struct node *), enum color color)
{
    for (struct node *one = *list; one; one = one->next)
        if (one->color == color && is(one))
            return one;
    return 0;
}

static int is_any(const struct node *node) { return node->word.parts.low > 1 && both[1].c; }

int main(int argc, char **argv)
{
    struct node *list = own.node;
    byte first = (byte)argv[0][0];
    found(&list, is_any, RED);
    nothing();
    return count + add(list, (u32)argc) + (int)half(1.5, &own.odd) + local(argc, &first);
}
