/* A program that waits, so that debuggers can read its variables. */
#include <unistd.h>

struct point { int x, y; struct point *next; };

static struct point last = {5, 6, 0};
struct point first = {3, 4, &last};

int main(void)
{
    for (;;)
        pause();
}
