/* The stack of each operation on a record, in bytes: stack FILE. The list of the replay and of the read-off is the events as they are
   numbered. The stack below the caller is filled with a mark, the operation is called, and the deepest byte that changed is looked for.

   (cd crates/reefmitten && rt lib) && mkdir -p target && cc -O1 -Iinclude c/stack.c crates/reefmitten/out/libreefmitten.a -o target/stack */
#include "reefmitten.h"
#include <stdio.h>
#include <string.h>

enum { DEEP = 65536, MARK = 0xa5 };

static uint8_t record[4096];
static size_t record_len;
static uint16_t list[REEFMITTEN_EVENTS], evidence[REEFMITTEN_EVIDENCE];
static uint64_t table[REEFMITTEN_EVENTS];
static uint8_t out[REEFMITTEN_RECORD];
static size_t n, a, b;

static uint16_t check(void) { return reefmitten_check(record, record_len, evidence, REEFMITTEN_EVIDENCE, &a); }
static uint16_t replay(void) { return reefmitten_replay(record, record_len, list, n, evidence, REEFMITTEN_EVIDENCE, &a); }
static uint16_t read_off(void) { return reefmitten_read_off(record, record_len, list, n, out, REEFMITTEN_RECORD, &a); }
static uint16_t order_table(void) { return reefmitten_order_table(record, record_len, table, REEFMITTEN_EVENTS); }
static uint16_t view(void) { return reefmitten_view(record, record_len, 0, &a, &b); }
static uint16_t open_reader(void) { return reefmitten_open(record, record_len, &a); }
static uint16_t next(void) { return reefmitten_next(record, record_len, 0, &a, &b); }

/* The distance from here to the deepest byte that the call changed. */
__attribute__((noinline)) static size_t depth(uint16_t (*operation)(void), uint16_t *answer)
{
    volatile uint8_t *top;
    __asm__ volatile("mov %%rsp, %0" : "=r"(top));
    for (size_t i = 1; i <= DEEP; i++)
        top[-(ptrdiff_t)i] = MARK;
    *answer = operation();
    size_t i = DEEP;
    while (i > 0 && top[-(ptrdiff_t)i] == MARK)
        i--;
    return i;
}

int main(int argc, char **argv)
{
    static const struct { const char *name; uint16_t (*call)(void); } operations[] = {
        {"check", check}, {"replay", replay}, {"read-off", read_off}, {"order table", order_table},
        {"view", view}, {"open", open_reader}, {"next", next}};
    FILE *file = argc == 2 ? fopen(argv[1], "rb") : NULL;
    if (!file) {
        fprintf(stderr, "stack FILE: the file cannot be read\n");
        return 2;
    }
    record_len = fread(record, 1, sizeof record, file);
    fclose(file);
    n = record_len < 4 ? 0 : record[2];
    for (size_t i = 0; i < n && i < REEFMITTEN_EVENTS; i++)
        list[i] = (uint16_t)i;
    for (size_t i = 0; i < sizeof operations / sizeof *operations; i++) {
        uint16_t answer;
        size_t bytes = depth(operations[i].call, &answer);
        printf("%s %zu bytes, answer %u\n", operations[i].name, bytes, answer);
    }
    return 0;
}
