/* types.c - types, functions and objects of many kinds, to test readers of debug information. */
#include <complex.h>
#include <stdarg.h>
#include <stdbool.h>
#include <stdio.h>
#include <sys/stat.h>

enum color { RED, GREEN = 5, BLUE = -1 };
enum { UNNAMED = 7, OTHER };
struct packet {
    char kind;
    struct packet *next;
    short port;
    unsigned flags : 3;
    unsigned : 2;
    enum color of : 4;
    bool is_last : 1;
    struct { int inner; union { float f; int i; }; };
    unsigned char rest[];
} first;
typedef struct packet *list[4];
typedef int calls(const struct packet *, ...);
typedef const list fixed;
struct grid { double cells[3][4][5]; const volatile char *const *names; _Atomic(long) count; };
union either { int i; double d; struct grid *g; };
struct never_defined;
list lists;
fixed *fixed_lists;
static struct grid grids[2];
_Atomic int counter;
_Thread_local int own;
long double longest;
float _Complex turned;
__int128 wide;
calls *table[3];
int (*(*nested)(int (*)(union either)))[7];
struct never_defined *hidden;
typedef int vector __attribute__((vector_size(16)));
vector four;
static inline int helper(int a, const char *b, ...) { return a + (b != 0); }
extern int undefined(struct packet *);
void no_return(void) __attribute__((noreturn));
static int part(register int n, enum color c) { return n > 3 ? part(n - 1, c) : c; }
int main(int argc, char **argv)
{
    struct stat about;
    struct local { int a, b; } mine = { argc, 2 };
    FILE *file = stdout;
    grids[0].count = helper(argc, argv[0]) + stat("/", &about) + (file != 0) + UNNAMED + mine.b;
    return part(argc, RED) + (int)grids[0].count;
}
