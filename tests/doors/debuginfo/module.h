/* Included by both files of a module: a struct of the kernel, one of its own, and the sections into
   which a kernel module puts its code and data. */
struct list_head { struct list_head *next, *previous; };
struct device { const char *name; struct list_head list; unsigned is_open : 1, number : 7; };
struct operations { int (*open)(struct device *), (*close)(struct device *, long flags); };
#define IN(name) __attribute__((section(name), used))
int register_device(struct device *one);  /* of the kernel */
int close_device(struct device *one, long flags);
extern struct device devices[4];
extern const struct operations operations;
