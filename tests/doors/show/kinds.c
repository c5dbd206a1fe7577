/* A program that waits, with values of every kind, for debuggers to read. */
#include <stdio.h>
#include <unistd.h>
#include <complex.h>
#include <wchar.h>
#include <stdbool.h>
#include <stdint.h>
__int128 a = -5; unsigned __int128 b = ~(unsigned __int128) 0, c = 7; unsigned __int128 d = (unsigned __int128) 1 << 100;
__int128 aa[3] = {1, -1, (__int128) 1 << 90};
long double complex lc = 1 + 2 * I; double complex dc = 1 - 2 * I; float complex fc = 0.5f; long double ld = 1.1L; float f = 0.1f;
struct bits { signed s : 5; unsigned u : 7; bool t : 1; long l : 40; unsigned long ul : 64; int64_t x : 33; } bits = {-3, 100, 1, -7, ~0ul, -9};
wchar_t w[] = L"wide \x20ac 1"; const wchar_t *wp = w; wchar_t wc = L'x';
enum flags { A = 1, B = 2, C = 4 } fl = 3, fl0 = 0, fl9 = 9; enum neg { N = -1, P = 1 } ne = -1, ne5 = 5;
union u { int i; float f; struct { char a, b; }; } un = {65};
struct empty {} em; struct empty ems[3]; int none[0]; char nochars[0];
char text[300] = "abc"; char *words[] = {"one", 0, "three"}; char filled[20] = "xxxxxxxxxxxxxxxxxxx";
unsigned char raw[] = {1, 2, 250}; signed char sc = -3; bool bo = 1; bool odd; 
int grid[3][4] = {{1, 2, 3, 4}, {5, 5, 5, 5}}; void *vp = &bits; int (*fp)(const char *, ...) = printf; int (*fps[2])(const char *, ...) = {printf};
struct nest { struct { int x; union { int y; char z; }; } in[2]; struct nest *self; const volatile int *const cv; } nest = {{{1, {2}}, {3, {4}}}, &nest, 0};
typedef struct { int q; } anon; anon an = {5}; anon *anp = &an; volatile int vi = 3; const char *const cc = "const"; 
double inf = 1.0 / 0.0, nan_ = 0.0 / 0.0, big = 1e300, small = 5e-324; uint8_t u8 = 200; int8_t i8 = -5; char ch = 'q'; unsigned short us = 65535;
int main(void) { puts("ready"); fflush(stdout); for (;;) pause(); }
