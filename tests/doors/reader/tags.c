/* tags.c - tags that units declare, define alike or define differently, for UNIT 1, 2 and 3.

   `shared` and `node` are the same in units 1 and 3, and only declared in unit 2. `own` differs in
   unit 2, with the same size and line, and so do the types that refer to it. */
#if UNIT == 1
typedef int field;
#elif UNIT == 2
typedef float field;
#else
struct hidden { long of_unit_three; };
union choice { int number; struct hidden *of; };
enum late { LATE_ONE = 1, LATE_TWO };
typedef int field;
#endif

struct hidden;
union choice;
#if UNIT != 2
struct node { struct node *next; struct hidden *of; union choice *choice; enum late *late; };
#else
struct node;
#endif
struct own { field one; };
struct reaches_own { struct own *own; struct node *node; };
struct far { struct reaches_own *near; struct far *further; };
#if UNIT == 1
struct shared { struct far *far; struct node nodes[2]; int (*call)(struct hidden *, union choice *); };
struct odd { int one; };
#elif UNIT == 3
struct shared { struct far *far; struct node nodes[2]; int (*call)(struct hidden *, union choice *); };
struct odd { int one, two; };
#endif
struct shared;
struct odd;
struct never_told;

#define OF_UNIT_(name, unit) name##unit
#define OF_UNIT(name, unit) OF_UNIT_(name, unit)
struct shared *OF_UNIT(shared, UNIT);
struct far *OF_UNIT(far, UNIT);
struct odd *OF_UNIT(odd, UNIT);
struct never_told *OF_UNIT(never, UNIT);
struct node *OF_UNIT(node, UNIT);
struct hidden *OF_UNIT(hidden, UNIT);
enum late *OF_UNIT(late, UNIT);
#if UNIT == 1
int main(void) { return 0; }
#endif
