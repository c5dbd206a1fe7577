/* The second of two files that have functions, a variable and a struct with the same names. */
struct counted { long first, number; };
static struct counted count = {2, 3};
static long again(long more);
static long touch(struct counted *by, long more) { return by->number += count.first + more; }
int one(void);
int main(void) { return one() + touch(&count, 4) + again(5) == 0; }
static long again(long more) { return count.number + more; }
