/* A program that waits, with values of many kinds, for debuggers to read. */
#include <stdio.h>
#include <unistd.h>

enum color { RED, GREEN = 5 };
struct link { struct link *next, *previous; };
struct node {
    int number;
    const char *name;
    struct node *next;
    unsigned flags : 3;
    struct link in;
};
struct table { struct node *slots[4]; double ratio; enum color color; char text[8]; };

int touch(struct node *one) { return one->number; }
int (*call)(struct node *) = touch;
struct link all;
struct node third = {30, "third", 0, 7};
struct node second = {20, "second", &third, 2};
struct node first = {10, "first", &second, 1};
static struct table table = {{&first, &second, 0, &third}, 0.5, GREEN, "text"};
struct node *head = &first;
unsigned char bytes[300] = {1, 2, 3};
const int fixed[3] = {7, 8, 9};

int main(void)
{
    all.next = &first.in;
    first.in.next = &second.in;
    second.in.next = &all;
    char *read = fgets(table.text, sizeof table.text, stdin);
    for (puts("ready"), fflush(stdout); call(head) + (read != 0);)
        pause();
}
