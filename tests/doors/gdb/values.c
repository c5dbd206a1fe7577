/* The values that tests/doors/gdb/run.sh reads: of each kind that the plug-in prints. No C library
   is linked, so nothing else is in the program. Calls stop() once all values are set. For x86-64,
   and for i386, where long has 32 bits and system calls are made differently. */

#ifdef __x86_64__
#define WIDTH 37
#define NARROW -12345678901
#define EXIT "andq $-16, %%rsp\n\tmovl $60, %%eax\n\txorl %%edi, %%edi\n\tsyscall"
#else
#define WIDTH 27
#define NARROW -12345678
#define EXIT "movl $1, %%eax\n\txorl %%ebx, %%ebx\n\tint $0x80"
#endif

typedef unsigned char byte;
typedef unsigned long word;
typedef int (*operation)(int, const char *);
typedef __WCHAR_TYPE__ wchar_t;

enum color { RED, GREEN = 5, BLUE = -1 };
enum mode { READ = 1, WRITE = 2, EXECUTE = 4, SHARED = 24 };
enum apart { ONE = 1, FIVE = 5 };
enum twice { FIRST = 1, SECOND = 1, THIRD = 2 };
enum overlapping { LOW = 1, BOTH = 3 };
enum gapped { EMPTY = 0, ENDS = 9, MIDDLE = 2 };
enum wide { NONE = 0, TOP = 0x40000000 };
enum access { CLOSED, OPEN = 1, HIDDEN = 2, SEALED = 4, LAST = 0x40000000 };

struct unknown;

struct numbers {
	char c;
	signed char sc;
	byte uc;
	short s;
	unsigned short us;
	int i;
	unsigned int ui;
	long l;
	word ul;
	long long ll;
	unsigned long long ull;
	_Bool yes, no;
};

struct floats {
	float f;
	double d;
	long double ld;
};

struct bits {
	unsigned int a : 3;
	int b : 5;
	unsigned int c : 11;
	_Bool d : 1;
	int : 4;
	long e : WIDTH;
	unsigned char f : 2;
	char g : 7;
	short h;
};

union any {
	int i;
	float f;
	byte bytes[8];
	void *p;
	struct { short low, high; };
};

struct pair { int x, y; };

struct nested {
	int before;
	struct { int a; union { int b; float c; }; struct { char d; enum color e; }; };
	struct pair inside;
	struct pair pairs[3];
	union any any;
	struct { struct { int deep; } in; } named;
};

struct node {
	int number;
	const char *name;
	struct node *next;
	struct node *const *all;
	struct unknown *unknown;
	operation call;
	void (*done)(void);
	struct node *(*made)(struct node *, enum color, ...);
	void *data;
	byte *bytes;
	int (*rows)[3];
};

struct deep {
	struct {
		struct pair pair; int row[2]; char text[4];
		struct { union { struct pair both; int one; }; };
	};
	struct { struct { struct { int x[2]; } c; } b; } a;
	wchar_t wide[3];
};

struct link { struct link *next, *previous; };

struct item { int number; struct link link; char name[8]; };

struct qualified {
	const int c;
	volatile int v;
	const volatile long cv;
	const char *const text;
	char *restrict sole;
};

struct large { long head; int rows[40][60]; char text[600]; struct pair tail; };

struct empty { };

struct nothing { int before, none[0], behind; };

struct qualified_pair { const struct { int x, y; } inner; volatile enum color color; };

struct flexible { int count; struct pair pairs[]; };
struct trailing { int length; char text[]; };

struct {
	int one;
	enum { LEFT, RIGHT = 3 } side;
} unnamed;

int zero;
int answer = 42;
int negative = -7;
long big = (long) 0x7123456789abcdefLL;
word bits_of_all = ~0UL;
unsigned long long most = ~0ULL;
#ifdef __SIZEOF_INT128__
__int128 huge = ((__int128) 1 << 100) + 5;
#endif
_Bool truth = 1;
char letter = 'A', quote = '\'', newline = '\n', low = 1, high = (char) 200;
byte octet = 200;
signed char tiny = -5;
char word_of[8] = "abc";
char full[4] = { 'f', 'u', 'l', 'l' };
char escaped[] = "tab\t \"quoted\" back\\slash \033[0m \x7f\x80\xff end";
char spaces[16];
char most_of[200] = "two hundred bytes";
char lines[3][6] = { "one", "two", "three" };
char running[64] = "aaaaaaaaaabbbbbbbbbbbccccccccccccdd";
byte octets[5] = { 1, 2, 65, 0, 255 };
char long_text[300] =
	"a text that is longer than the limit of gdb, two hundred characters, and which"
	" goes on from here for another line and then a little more, so that it is cut, and where"
	" the dots stand is seen: it goes on and on, up to the end of it, which is here.";
wchar_t wide_text[6] = L"w\tide";
int vector[5] = { 1, -2, 3, -4, 5 };
int matrix[2][3] = { { 1, 2, 3 }, { 4, 5, 6 } };
int cube[2][2][2] = { { { 1, 2 }, { 3, 4 } }, { { 5, 6 }, { 7, 8 } } };
int many[300];
short runs[30] = { 1, 1, 1, [5] = 2, 2, 2, 2, 2, 2, 2, 2, 2, 2, 2, 2, 3 };
enum color color = GREEN, colors[3] = { RED, BLUE, (enum color) 77 };
enum mode mode = READ, modes[7] = { 0, READ | EXECUTE, 8, 24, 64, 65, WRITE | SHARED };
enum apart aparts[4] = { 1, 5, 4, 0 };
enum twice twices[4] = { 1, 2, 3, 0 };
enum overlapping overlappings[4] = { 1, 3, 2, 0 };
enum gapped gappeds[4] = { 0, 9, 11, 16 };
enum access access = OPEN | SEALED, accesses[6] = { 0, 3, 8, 12, 4, LAST | HIDDEN };
enum wide wides[3] = { NONE, TOP, (enum wide) 0x40000001 };
float single = 0.1f, singles[6] = { 1, -2.5f, 1e30f, 1e-40f, 3.0e-5f, 16777216 };
double twofold = 0.1;
double doubles[8] = { 0, -0.0, 1e100, 5e-324, 3.141592653589793, 1e16, 123456789, 100 };
long double extended = 0.1L, extendeds[5] = { 0, -1.5L, 1e4000L, 1e-4940L, 12345678.9L };
float odd[4] = { __builtin_inff(), -__builtin_inff(), __builtin_nanf(""), -__builtin_nanf("5") };
double odds[3] = { __builtin_inf(), __builtin_nan(""), -__builtin_nan("7") };
_Complex double rotated = 1.5 - 2.5i;
struct numbers numbers = { 'x', -3, 250, -300, 60000, -70000, 4000000000u, -5, 6, -7, 8, 1, 0 };
struct floats floats = { 1.5f, -2.25, 3.125L };
struct bits bits = { 5, -3, 1234, 1, NARROW, 2, -9, -77 };
struct bits more_bits[2] = { { 7, 15, 2047, 0, 1, 3, 63, 1 }, { 0, -16, 1, 1, -1, 0, -64, -1 } };
union any any = { .bytes = { 0, 0, 0x80, 0x3f, 1, 2, 3, 4 } };
struct nested nested = { 1, { 2, { 3 }, { 'd', BLUE } }, { 4, 5 },
	{ { 6, 7 }, { 8, 9 }, { 10, 11 } }, { .i = 12 }, { { 13 } } };
struct deep deep = { { { 1, 2 }, { 3, 4 }, "txt", { { { 5, 6 } } } }, { { { { 7, 8 } } } }, L"w" };
struct nested *at_nested = &nested;
struct qualified qualified = { 1, 2, 3, "constant", word_of };
struct large large = { 7, { { 1, 2, 3 }, { 4 } }, "text in a large struct", { 8, 9 } };
struct empty empty;
struct nothing nothing = { 1, { }, 2 };
struct qualified_pair qualified_pair = { { 1, 2 }, BLUE };
struct pair table[2][3] = { { { 1, 2 }, { 3, 4 }, { 5, 6 } }, { { 7, 8 } } };
int squares[30][20];
union any unions[2] = { { .f = 1.5f }, { .low = 3, .high = 4 } };
unsigned short wides_of[4] = { 65, 0x263a, 0xffff, 0 };
wchar_t wide_letter = L'w', wide_other = 0x263a, wide_negative = -1;
wchar_t wide_all[3] = { -2, 200, 0x263a };
struct flexible flexible = { 2, { { 1, 2 }, { 3, 4 } } };
struct trailing trailing = { 5, "text" };
struct pair pairs[4] = { { 1, 2 }, { 1, 2 }, { 3, 4 } }, *at_pair = &pairs[2];
struct node first, second, *head = &first, *const nodes[3] = { &first, &second, 0 };
struct node **at_head = &head;
struct link list = { &list, &list };
struct item items[3] = { { 10, { 0, 0 }, "ten" }, { 20, { 0, 0 }, "twenty" },
	{ 30, { 0, 0 }, "30" } };
const char *text = "a text", *no_text, *texts[3] = { "one", 0, "three" };
char *at_text = escaped + 4;
byte *at_octets = octets;
signed char *at_tiny = &tiny;
void *nowhere, *anywhere = &matrix;
int *at_answer = &answer, **at_at_answer = &at_answer;
int (*at_row)[3] = &matrix[1];
int (*rows_of(void))[3];
const volatile int *watched = &zero;
struct unknown *unknown = (struct unknown *) 0x1000;

static int counter = 3;

int add(int a, const char *b) { return a + (b ? b[0] : 0) + counter; }
void done(void) { zero = 0; }
struct node *made(struct node *node, enum color color, ...) { return color == RED ? 0 : node; }
int (*rows_of(void))[3] { return matrix; }
float halved(double of, struct pair by) { return of / 2 + by.x; }

operation operate = add, operations[3] = { add, 0, add };
void (*finish)(void) = done;
struct node *(*make)(struct node *, enum color, ...) = made;
int (*(*rows)(void))[3] = rows_of;

void stop(struct node *node, struct item *item) { counter += node == 0 || item == 0; }

static void set(void)
{
	first = (struct node) { 1, "first", &second, &nodes[1], unknown, add, done, made, &matrix,
		octets, &matrix[1] };
	second = (struct node) { 2, 0, &first, 0, 0, 0, 0, 0, &second.data, 0, 0 };
	unnamed.one = 1;
	unnamed.side = RIGHT;
	list = (struct link) { &items[0].link, &items[2].link };
	for (int n = 0; n < 3; n++)
		items[n].link = (struct link) { n < 2 ? &items[n + 1].link : &list,
			n ? &items[n - 1].link : &list };
	for (int n = 0; n < 600; n++)
		squares[n / 20][n % 20] = n * n;
	for (int n = 0; n < 300; n++)
		many[n] = n < 100 || n >= 150 ? n * n : 5;
}

void _start(void)
{
	set();
	stop(&first, &items[1]);
	__asm__(EXIT : : : "memory");
	__builtin_unreachable();
}
