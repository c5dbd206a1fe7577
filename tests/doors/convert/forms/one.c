#include "shared.h"
struct inner both[3] = {{1}, {2}, {3}};
int count = 4;
static int hidden[5][2];
static struct odd only_here = {1, 2, {{3}}};
volatile byte state;

static inline int twice(int a) { return 2 * a + hidden[a & 3][1]; }
__attribute__((noinline)) static int local(int a, byte *at) { return hidden[a & 3][0] + *at; }
int add(struct node *node, u32 more)
{ return twice((int)(node->flags + more)) + local(1, &node->raw[1]); }
double half(double value, const struct odd *odd) { return value / 2 + odd->u + only_here.b; }
void nothing(void) { state++; }
