/* Each call and its form in _at, on a stack of its own of as many bytes as the header says; the page under it cannot be touched. Prints the
 * bytes used. */
#define _GNU_SOURCE
#include "files.h"

#include <string.h>
#include <sys/mman.h>
#include <ucontext.h>

#define PAGE 4096
#define PAINT 0xa5

static uint8_t model_text[FP_FILE], weights_text[FP_FILE], trace_text[FP_FILE], out[FP_FILE];
static size_t model_len, weights_len, trace_len, written;
static fp_model model, idling, model_at;
static fp_marking start, marking;
static fp_read_model_answer read_model;
static fp_read_marking_answer read_marking;
static fp_stepped stepped;
static fp_ran ran;
static fp_converted converted;
static size_t answer;

static void do_version(void) { answer = fp_version() != FP_VERSION; }
static void do_read_model(void) { read_model = fp_read_model(model_text, model_len), answer = read_model.number; }
static void do_read_model_at(void) { answer = fp_read_model_at(model_text, model_len, &model, &start).number; }
static void do_read_marking(void) { read_marking = fp_read_marking(model, out, written), answer = read_marking.number; }
static void do_read_marking_at(void) { answer = fp_read_marking_at(&model, out, written, &marking).number; }
static void do_test_model(void) { answer = !fp_test_model(model); }
static void do_test_model_at(void) { answer = !fp_test_model_at(&model); }
static void do_test_marking(void) { answer = !fp_test_marking(model, start); }
static void do_test_marking_at(void) { answer = !fp_test_marking_at(&model, &start); }
static void do_write_marking(void) { answer = fp_write_marking(model, start, out, sizeof out).number; }
static void do_write_marking_at(void) { answer = fp_write_marking_at(&model, &start, out, sizeof out).number; }
static void do_convert(void) { converted = fp_convert(idling), answer = converted.number; }
static void do_convert_at(void) { answer = fp_convert_at(&idling, &model_at, converted.numbers).number; }
static void do_step(void) { stepped = fp_step(model, start, trace_text + 6, trace_len - 6), answer = stepped.number; }
static void do_step_at(void) { answer = fp_step_at(&model, &marking, trace_text + 6, trace_len - 6).number; }
static void do_run(void) { ran = fp_run(model, start, trace_text, trace_len), answer = !ran.fired; }
static void do_run_at(void) { marking = start, answer = !fp_run_at(&model, &marking, trace_text, trace_len).fired; }
static void do_ways(void) { answer = fp_ways(FP_SPREAD_TOKENS, FP_SPREAD_RACKS).number; }
static void do_check_weights(void) { answer = fp_check_weights(model, start, weights_text, weights_len).number; }
static void do_check_weights_at(void) { answer = fp_check_weights_at(&model, &start, weights_text, weights_len).number; }
static void do_listing(void) {
    answer = fp_listing(model_text, model_len, weights_text, weights_len, trace_text, trace_len, out, sizeof out).number;
}

/* A model with as many events as can be, all of them like and idling, two at each place. */
static bool read_idling(void) {
    char *p = (char *)out;
    p += sprintf(p, "eos=1\nnets=1\nplaces=%d\ntype=1", FP_PLACES);
    for (int i = 1; i < FP_PLACES; i++)
        p += sprintf(p, ",1");
    p += sprintf(p, "\nmoves=0\ninner=1\nsteps=1\npre=1\npost=1\nevents=%d\n", FP_EVENTS);
    for (int k = 0; k < FP_EVENTS; k++)
        p += sprintf(p, "idle=%d\nsync=1\n", k % FP_PLACES + 1);
    p += sprintf(p, "start=0\n");
    return fp_read_model_at(out, (size_t)(p - (char *)out), &idling, &marking).number == FP_ACCEPTED;
}

static ucontext_t here, there;

/* Whether the call, on a stack of so many bytes, gives the answer 0. */
static bool fits(const char *name, void (*call)(void), size_t bytes) {
    uint8_t *base = mmap(NULL, PAGE + bytes, PROT_READ | PROT_WRITE, MAP_PRIVATE | MAP_ANONYMOUS, -1, 0);
    if (base == MAP_FAILED || mprotect(base, PAGE, PROT_NONE) != 0)
        return false;
    uint8_t *stack = base + PAGE;
    memset(stack, PAINT, bytes);
    getcontext(&there);
    there.uc_stack.ss_sp = stack;
    there.uc_stack.ss_size = bytes;
    there.uc_link = &here;
    makecontext(&there, call, 0);
    answer = 1;
    swapcontext(&here, &there);
    size_t untouched = 0;
    while (untouched < bytes && stack[untouched] == PAINT)
        untouched++;
    printf("%s %zu of %zu\n", name, bytes - untouched, bytes);
    munmap(base, PAGE + bytes);
    return answer == 0;
}

#define FITS(call, CALL) fits("fp_" #call, do_##call, FP_STACK_##CALL)

int main(int argc, char **argv) {
    if (argc != 2)
        return 2;
    model_len = load(argv[1], "model", model_text);
    weights_len = load(argv[1], "weights", weights_text);
    trace_len = load(argv[1], "trace", trace_text);
    bool fit = FITS(version, VERSION) && FITS(read_model, READ_MODEL) && FITS(read_model_at, READ_MODEL);
    fit = fit && read_idling() && FITS(convert, CONVERT) && FITS(convert_at, CONVERT) && converted.model.listed == 1;
    marking = start;
    fit = fit && FITS(write_marking, WRITE_MARKING) && FITS(write_marking_at, WRITE_MARKING);
    written = fp_write_marking_at(&model, &start, out, sizeof out).bytes;
    fit = fit && FITS(read_marking, READ_MARKING) && FITS(read_marking_at, READ_MARKING);
    fit = fit && FITS(test_model, TEST_MODEL) && FITS(test_model_at, TEST_MODEL);
    fit = fit && FITS(test_marking, TEST_MARKING) && FITS(test_marking_at, TEST_MARKING);
    fit = fit && FITS(step, STEP) && FITS(step_at, STEP) && FITS(run, RUN) && FITS(run_at, RUN) && FITS(ways, WAYS);
    fit = fit && FITS(check_weights, CHECK_WEIGHTS) && FITS(check_weights_at, CHECK_WEIGHTS) && FITS(listing, LISTING);
    return !fit;
}
