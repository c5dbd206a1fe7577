/* The second of two files of a module. It has a variable and a function with the same names as in
 * the first. */
#include "module.h"
static long count = 5;
static __attribute__((noinline)) long open_device(const struct device *one, long more)
{ return more + count++; }
static long long big[8] IN(".bss.big");
int close_device(struct device *one, long flags)
{
    return operations.open(one) + open_device(one, flags) + big[flags & 7];
}
static int IN(".text.unlikely") failed(const struct operations *by) { return by->close(0, 0); }
