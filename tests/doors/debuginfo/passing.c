/* Functions that take arguments of all classes of the calling convention of x86-64. */
#include <stdarg.h>

#define TAKES __attribute__((noipa))

struct pair { int x, y; };
struct floats { float a, b, c; };
struct mixed { double d; long l; };
struct odd { char c[3]; short s; };
struct large { long all[3]; };
struct vector { double d; } wrapped;
struct packed { char c; double d; } __attribute__((packed));
struct bits { unsigned a : 3, b : 20; long c : 40; };
struct long_double { long double l; };
union both { double d; int i; };
enum color { RED, GREEN, BLUE };

static volatile long sink;

TAKES long integers(char a, short b, int c, long d, unsigned char e, _Bool f, int g, long h)
{ return a + b + c + d + e + f + g + h; }
TAKES double numbers(float a, double b, float c, double d, double e, double f, double g, double h,
                     double i, float j) { return a + b + c + d + e + f + g + h + i + j; }
TAKES long by_turns(int a, double b, int *c, float d, enum color e) { return a + b + *c + d + e; }
TAKES long pairs(struct pair a, struct floats b, struct mixed c, struct odd d)
{ return a.x + b.c + c.l + d.s; }
TAKES long in_memory(struct large a, int b, struct packed c, struct long_double d, int e)
{ return a.all[2] + b + c.c + d.l + e; }
TAKES long no_room(long a, long b, long c, long d, long e, struct pair f, struct large g,
                   struct mixed h, struct vector i, int j)
{ return a + b + c + d + e + f.x + g.all[0] + h.l + i.d + j; }
TAKES struct large returned(int a, struct pair b)
{ struct large made = { { a, b.x, b.y } }; return made; }
TAKES struct pair in_registers(int a, union both b)
{ struct pair made = { a, b.i }; return made; }
TAKES long wide(__int128 a, long double b, _Complex float c, _Complex double d, int e)
{ return a + b + __real__ c + __imag__ d + e; }
TAKES long fields(struct bits a, struct bits *b) { return a.b + b->c; }
TAKES long more(int count, const char *names, ...)
{
    va_list rest;
    long sum = 0;
    va_start(rest, names);
    while (count-- > 0)
        sum += va_arg(rest, int);
    va_end(rest);
    return sum + *names;
}

int number = 7;
struct bits bits = { 5, 700000, -3 };

int main(void)
{
    struct pair pair = { 1, -2 };
    struct floats floats = { 1.5, 2.5, 3.5 };
    struct mixed mixed = { 4.5, 5 };
    struct odd odd = { "ab", 6 };
    struct large large = { { 7, 8, 9 } };
    struct packed packed = { 'p', 10.5 };
    struct long_double longest = { 11.5L };
    union both both = { 12.5 };
    sink = integers('a', -2, 3, -4, 5, 1, 7, 8);
    sink = numbers(1, 2, 3, 4, 5, 6, 7, 8, 9.5, 10.5);
    sink = by_turns(1, 2.5, &number, 3.5, BLUE);
    sink = pairs(pair, floats, mixed, odd);
    sink = in_memory(large, 1, packed, longest, 2);
    sink = no_room(1, 2, 3, 4, 5, pair, large, mixed, wrapped, 6);
    sink = returned(3, pair).all[0];
    sink = in_registers(4, both).x;
    sink = wide((__int128) 1 << 70, 2.5L, 3.5f + 4.5if, 5.5 + 6.5i, 7);
    sink = fields(bits, &bits);
    sink = more(2, "names", 8, 9);
    return 0;
}
