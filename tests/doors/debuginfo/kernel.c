/* The types of a kernel, as far as the module of module_one.c and module_two.c uses them. */
struct list_head { struct list_head *next, *previous; };
struct device { const char *name; struct list_head list; unsigned is_open : 1, number : 7; };
struct device *of_kernel;
