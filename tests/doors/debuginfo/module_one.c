/* The first of two files of a module, which is not linked: `ld -r` joins them. */
#include "module.h"
static int count;
static struct { int first, last; } range IN(".data.once") = {1, 2};
int limit IN(".data..read_mostly") = 7;
struct device devices[4] = {{"first", {&devices[0].list, &devices[0].list}, 1, 3}};
static struct list_head *waiting IN(".ref.data") = &devices[0].list;
static int open_device(struct device *one) { return one->number + count++; }
const struct operations operations = {open_device, close_device};
static int IN(".init.text") start(void) { return register_device(&devices[range.first]); }
static void IN(".exit.text") stop(void) { waiting = 0; }
