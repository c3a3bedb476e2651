/* Times the plan text of each interval that leastplan asks about, through the C archive; of each plan that is found it
   asks for the page too, which is not timed.
   Standard input: pieces, each a line bytes=N and N bytes of a sheet. Standard output, a line for each
   interval: sheet, interval, answer, nanoseconds; 0 or 4 is a sheet's last answer.
   Standard error: the greatest depth of the stack.
   As times SECONDS it leaves a question, and with it the rest of the sheet, that takes longer, with the answer -1; and
   each line has besides a checksum of the text that was given. */
#include <pthread.h>
#include <setjmp.h>
#include <signal.h>
#include <stdint.h>
#include <stdio.h>
#include <stdlib.h>
#include <string.h>
#include <sys/mman.h>
#include <sys/time.h>
#include <time.h>

#include "leastplan.h"

enum { LONGEST = 4097, MOST_INTERVALS = 64, MOST_OPERATIONS = 24, STACK = 64 << 20, PAINT = 0xA5, LEFT = -1 };

static long limit; /* seconds a question; 0 for none */
static sigjmp_buf left;

/* Processor time of this thread, so that other work on the machine does not count. */
static int64_t now(void)
{
    struct timespec t;
    clock_gettime(CLOCK_THREAD_CPUTIME_ID, &t);
    return t.tv_sec * INT64_C(1000000000) + t.tv_nsec;
}

/* The page of a plan by its text: for the depth of the stack. */
static void ask_page(const uint8_t *sheet, size_t length, uint64_t interval, const char *text)
{
    static uint8_t page[LEASTPLAN_PAGE_ROOM];
    size_t starts[MOST_OPERATIONS], instances[MOST_OPERATIONS], count = 0;
    for (; count < MOST_OPERATIONS && (text = strstr(text, "at=")); count++, text++)
        sscanf(text, "at=%zu,%zu", &starts[count], &instances[count]);
    if (leastplan_page(sheet, length, interval, starts, count, instances, count, page, sizeof page).answer) abort();
}

/* The calls keep nothing but their stack, so that one can be left in the middle. */
static void leave(int signal)
{
    (void)signal;
    siglongjmp(left, 1);
}

/* The signal comes after so many seconds of processor time; never for 0. */
static void leave_after(long seconds)
{
    struct itimerval timer = { { 0, 0 }, { seconds, 0 } };
    if (limit) setitimer(ITIMER_PROF, &timer, NULL);
}

/* The answer to one question and the bytes of its text, and how long it took. */
static int ask(const uint8_t *sheet, size_t length, uint64_t interval, uint8_t *text, size_t room, size_t *count,
               int64_t *took)
{
    *count = 0;
    *took = limit * INT64_C(1000000000);
    if (sigsetjmp(left, 1)) return LEFT;
    leave_after(limit);
    int64_t began = now();
    leastplan_text got = leastplan_plan_text(sheet, length, interval, text, room);
    int64_t ended = now();
    leave_after(0);
    *took = ended - began;
    *count = got.count;
    return (int)got.answer;
}

/* FNV-1a. */
static uint64_t checksum(const uint8_t *text, size_t count)
{
    uint64_t sum = UINT64_C(14695981039346656037);
    for (size_t k = 0; k < count; k++) sum = (sum ^ text[k]) * UINT64_C(1099511628211);
    return sum;
}

static void time_sheet(int number, const uint8_t *sheet, size_t length)
{
    static uint8_t text[4096];
    for (uint64_t interval = 1; interval <= MOST_INTERVALS; interval++) {
        size_t count;
        int64_t took;
        int answer = ask(sheet, length, interval, text, sizeof text - 1, &count, &took);
        printf("%d %d %d %lld", number, (int)interval, answer, (long long)took);
        if (limit) printf(" %016llx", (unsigned long long)checksum(text, count));
        printf("\n");
        text[count] = 0;
        if (answer == 0) ask_page(sheet, length, interval, (const char *)text);
        if (answer == 0 || answer == 4 || answer == LEFT) return;
    }
}

static void *all_sheets(void *unused)
{
    static uint8_t sheet[LONGEST];
    unsigned length;
    for (int number = 0; scanf("bytes=%u", &length) == 1 && length <= LONGEST && getchar() == '\n'; number++) {
        if (fread(sheet, 1, length, stdin) != length) break;
        time_sheet(number, sheet, length);
    }
    return unused;
}

/* From here on this thread leaves the signal to the one that asks. */
static void block_signal(void)
{
    sigset_t alone;
    sigemptyset(&alone);
    sigaddset(&alone, SIGPROF);
    pthread_sigmask(SIG_BLOCK, &alone, NULL);
}

/* Runs all on a stack of its own that is painted first: what is no longer painted was used. */
int main(int count, char **words)
{
    uint8_t *stack = mmap(NULL, STACK, PROT_READ | PROT_WRITE, MAP_PRIVATE | MAP_ANONYMOUS, -1, 0);
    pthread_attr_t attributes;
    pthread_t thread;
    size_t untouched = 0;
    if (stack == MAP_FAILED) return 1;
    limit = count > 1 ? atol(words[1]) : 0;
    signal(SIGPROF, leave);
    memset(stack, PAINT, STACK);
    pthread_attr_init(&attributes);
    if (pthread_attr_setstack(&attributes, stack, STACK)) return 1;
    if (pthread_create(&thread, &attributes, all_sheets, NULL)) return 1;
    block_signal();
    if (pthread_join(thread, NULL)) return 1;
    while (untouched < STACK && stack[untouched] == PAINT) untouched++;
    fprintf(stderr, "greatest depth of the stack: %zu bytes\n", (size_t)STACK - untouched);
    return 0;
}
