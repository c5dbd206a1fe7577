/* The types that tests/doors/ilp32/run.sh compares: of the C library and the kernel, and below them
   types that i386 lays out differently from x86-64, or whose layout is unusual. */
#define _GNU_SOURCE
#include <aio.h>
#include <arpa/inet.h>
#include <complex.h>
#include <dirent.h>
#include <elf.h>
#include <errno.h>
#include <fcntl.h>
#include <fenv.h>
#include <fts.h>
#include <glob.h>
#include <grp.h>
#include <ifaddrs.h>
#include <inttypes.h>
#include <link.h>
#include <locale.h>
#include <mqueue.h>
#include <net/if.h>
#include <netdb.h>
#include <netinet/icmp6.h>
#include <netinet/in.h>
#include <netinet/ip.h>
#include <netinet/tcp.h>
#include <netinet/udp.h>
#include <poll.h>
#include <pthread.h>
#include <pwd.h>
#include <regex.h>
#include <resolv.h>
#include <search.h>
#include <semaphore.h>
#include <setjmp.h>
#include <signal.h>
#include <spawn.h>
#include <stddef.h>
#include <stdio.h>
#include <stdlib.h>
#include <sys/epoll.h>
#include <sys/msg.h>
#include <sys/ptrace.h>
#include <sys/resource.h>
#include <sys/sem.h>
#include <sys/shm.h>
#include <sys/signalfd.h>
#include <sys/socket.h>
#include <sys/stat.h>
#include <sys/statvfs.h>
#include <sys/sysinfo.h>
#include <sys/time.h>
#include <sys/timex.h>
#include <sys/times.h>
#include <sys/ucontext.h>
#include <sys/uio.h>
#include <sys/un.h>
#include <sys/user.h>
#include <sys/utsname.h>
#include <sys/wait.h>
#include <termios.h>
#include <threads.h>
#include <time.h>
#include <ucontext.h>
#include <utmpx.h>
#include <wchar.h>

#include <linux/bpf.h>
#include <linux/btf.h>
#include <linux/ethtool.h>
#include <linux/fb.h>
#include <linux/fs.h>
#include <linux/input.h>
#include <linux/io_uring.h>
#include <linux/netlink.h>
#include <linux/perf_event.h>
#include <linux/rtnetlink.h>
#include <linux/videodev2.h>

/* Types of 8 bytes or more, aligned to 4 in a struct. */
struct wide { char c; long long l; char d; double f; char e; int64_t i; };
struct longest { char c; long double l; char d; long double complex f; };
struct aligned {
	char c;
	_Alignas(8) long long l;
	char d;
	struct wide w __attribute__((aligned(32)));
};
struct packed { char c; void *p; long l; long long ll; short s; } __attribute__((packed));

/* Types of 4 bytes on i386. */
struct pointers { char c; void *p, *rows[3][2]; char d; void (*call)(long), (*calls[2])(void); };
struct sizes {
	char c;
	size_t s;
	char d;
	ptrdiff_t p;
	char e;
	time_t t;
	char f;
	off_t o;
	wchar_t w;
};
struct node { struct node *next, **links[4]; union of { struct node *node; long number; } of; };
struct large { void *head[3000]; long tail; struct pointers pointers; };

struct bits {
	long a : 31;
	long long b : 33;
	int c : 3;
	_Bool d : 1;
	unsigned short e : 9, : 0, f : 7;
};
struct packed_bits {
	char c;
	unsigned a : 7, b : 13;
	long long d : 40;
	int e;
} __attribute__((packed));
struct bits_of_all { int all : 32; long long most : 64; };

struct unnamed {
	int a;
	union { long b; struct { void *c; char d; }; };
	struct { char e; };
	long f;
};
struct flexible { void *p; char c; struct pointers rest[]; };
struct none { int none[0]; struct { } empty; char c; long l[0]; };
union all { char c[5]; void *p; long long l; double d; struct packed packed; };
union packed_all { char c[5]; void *p; long long l; } __attribute__((packed));

enum small { SMALL = 1 } __attribute__((packed));
enum { UNNAMED_FIRST = -1, UNNAMED_LAST = 7 };
enum highest { HIGHEST = 0xffffffffu };
enum longer { LONGER = 0x100000000 };
typedef struct { enum { INNER, OUTER = 5 } side; enum small small; void *p; } only_a_typedef;

static only_a_typedef used;

int main(void)
{
	return printf("%zu\n", sizeof used) < 0;
}
