#include "quoting.h"
#include "../include/zundernetz.h"

#include <sys/mman.h>
#include <ucontext.h>

/* -- the small stack -- */

/* So much in front of it can't be touched: more than any frame could pass over. */
enum { IN_FRONT = 1024 * 1024 };

static uint8_t *new_stack(void)
{
    uint8_t *at = mmap(0, IN_FRONT + SMALL_STACK, PROT_NONE, MAP_PRIVATE | MAP_ANONYMOUS, -1, 0);
    must(at != MAP_FAILED && mprotect(at + IN_FRONT, SMALL_STACK, PROT_READ | PROT_WRITE) == 0);
    return at + IN_FRONT;
}

static ucontext_t here, there;

static void on_the_small_stack(void (*f)(void))
{
    static uint8_t *stack;
    volatile int gone = 0;
    if (!stack)
        stack = new_stack();
    must(getcontext(&there) == 0);
    there.uc_stack.ss_sp = stack;
    there.uc_stack.ss_size = SMALL_STACK;
    there.uc_link = &here;
    makecontext(&there, f, 0);
    /* The end of f comes back to this line. */
    must(getcontext(&here) == 0);
    if (!gone) {
        gone = 1;
        must(setcontext(&there) == 0);
    }
}

/* -- the call -- */

static struct {
    const uint8_t *book;
    size_t length, routine;
} asked;

static struct zn_quote_answer answer;

static void call(void) { answer = zn_quote(asked.book, asked.length, asked.routine); }

static void ask(const struct book *b, size_t length, size_t routine)
{
    static struct pages pages;
    if (!pages.edge)
        pages = new_pages();
    asked.book = at_the_edge(pages, b->bytes, length, 0);
    asked.length = length;
    asked.routine = routine;
    on_the_small_stack(call);
}

int quotes(const struct book *b, size_t routine, uint64_t quote)
{
    ask(b, b->length, routine);
    return answer.refusal == 0 && answer.place == 0 && answer.quote == quote;
}

int refuses_at(const struct book *b, size_t length, size_t routine, unsigned number, unsigned place)
{
    ask(b, length, routine);
    return answer.refusal == number && answer.place == place && answer.quote == 0;
}

int refuses(const struct book *b, size_t routine, unsigned number) { return refuses_at(b, b->length, routine, number, 0); }
