/* The first of two files that have functions, a variable and a struct with the same names. */
struct counted { int number; };
static struct counted count = {1};
static int again(void);
static int touch(struct counted *by) { return by->number += count.number; }
int one(void) { return touch(&count) + again(); }
static int again(void) { return count.number; }
