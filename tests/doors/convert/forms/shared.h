/* Shared by both units of the program. */
#include <stddef.h>
typedef unsigned int u32;
typedef unsigned char byte;
enum color { RED, GREEN = 7, BLUE };
struct inner { char c; };
union word { u32 all; byte each[4]; struct { u32 low : 5, high : 27; } parts; };
struct node {
    struct node *next, **back;
    u32 flags : 3, more : 29;
    const struct inner inner;
    int (*call)(int, ...);
    union { double d; byte raw[8]; };
    enum color color;
    union word word;
    char rest[];
};
struct __attribute__((packed)) odd { byte b; u32 u; struct inner in[3]; };
extern struct inner both[];
extern const char *const names[];
extern int count;
int add(struct node *node, u32 more);
double half(double value, const struct odd *odd);
struct node *found(struct node **list, int (*is)(const struct node *), enum color color);
void nothing(void);
