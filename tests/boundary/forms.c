/* The forms in _at give what their calls give, on a folder's plant and where the call refuses; a refusal leaves what the pointers say, and has
 * a column where its number has one. Events that idle are replaced, or it is said which cannot be. Likes are held once, up to as many as the
 * header says. And the longest text of a marking has as many bytes as the header says, and its listing no more. */
#include "files.h"

#include <string.h>

static int faults;

static void holds(bool so, const char *what) {
    if (!so) {
        printf("%s\n", what);
        faults++;
    }
}

#define SAME(a, b) (memcmp(&(a), &(b), sizeof(a)) == 0)

/* A column stands beside FP_SYNTAX and FP_RANGE, and 0 beside all else. */
static void column(size_t number, size_t column) {
    holds((column > 0) == (number == FP_SYNTAX || number == FP_RANGE), "a column");
}

static uint8_t model_text[FP_FILE], weights_text[FP_FILE], trace_text[FP_FILE], out[FP_FILE], out_at[FP_FILE];
static fp_model model, model_at;
static fp_marking marking, marking_at, before;
static fp_read_model_answer read_model;
static fp_read_marking_answer read_marking;
static fp_stepped stepped;
static fp_ran ran;
static fp_converted converted;

/* A model text, right or refused: what stood behind the pointers is then left. */
static void models(const uint8_t *text, size_t len) {
    read_model = fp_read_model(text, len);
    model_at = model;
    marking_at = marking;
    fp_read_at a = fp_read_model_at(text, len, &model_at, &marking_at);
    holds(a.number == read_model.number && a.beside == read_model.beside && a.column == read_model.column, "fp_read_model_at: answer");
    column(a.number, a.column);
    bool read = a.number == FP_ACCEPTED;
    holds(SAME(model_at, *(read ? &read_model.model : &model)), "fp_read_model_at: model");
    holds(SAME(marking_at, *(read ? &read_model.start : &marking)), "fp_read_model_at: start");
}

/* The model in hand converted, or refused: what stood behind the pointers is then left. */
static void conversions(size_t number, size_t beside) {
    uint8_t numbers[FP_EVENTS], none[FP_EVENTS];
    memset(numbers, 46, sizeof numbers);
    memset(none, 46, sizeof none);
    converted = fp_convert(model);
    model_at = model;
    fp_read_at a = fp_convert_at(&model_at, &model_at, numbers);
    holds(converted.number == number && converted.beside == beside, "fp_convert: answer");
    holds(a.number == converted.number && a.beside == converted.beside && a.column == converted.column, "fp_convert_at: answer");
    column(a.number, a.column);
    bool done = a.number == FP_ACCEPTED;
    holds(SAME(model_at, *(done ? &converted.model : &model)), "fp_convert_at: model");
    holds(memcmp(numbers, done ? converted.numbers : none, sizeof numbers) == 0, "fp_convert_at: numbers");
}

/* A model with `alone` comes back as it is, each event with its own number. */
static void unchanged(void) {
    conversions(FP_ACCEPTED, 0);
    holds(model.header == FP_WITH_ALONE && SAME(converted.model, model), "fp_convert: a model with alone");
    for (size_t k = 0; k < FP_EVENTS; k++)
        holds(converted.numbers[k] == (k < model.listed ? k + 1 : 0), "fp_convert: a number of a model with alone");
}

/* Two places of one net, and events at them. */
static void read_events(const char *events) {
    int len = sprintf((char *)model_text,
                      "eos=1\nnets=1\nplaces=2\ntype=1,1\nmoves=1\npre=1,0\npost=0,1\ninner=1\nsteps=1\npre=1\npost=1\n%sstart=0\n",
                      events);
    holds(fp_read_model_at(model_text, (size_t)len, &model, &marking).number == FP_ACCEPTED, "a model with events that idle");
}

/* Idling at both places is replaced where the first such event stood, and the moves go up; idling at one of them is refused. */
static void replaced(void) {
    static const uint8_t numbers[FP_EVENTS] = {1, 2, 3, 2, 4, 3, 2};
    static const fp_event events[FP_EVENTS] = {
        {FP_MOVE, 1, {0}}, {FP_ALONE, 1, {2}}, {FP_ALONE, 1, {1}}, {FP_MOVE, 1, {1}}};
    read_events("events=7\nevent=1\nsync=0\nidle=2\nsync=2\nidle=1\nsync=1\nidle=1\nsync=2\nevent=1\nsync=1\nidle=2\nsync=1\n"
                "idle=2\nsync=2\n");
    conversions(FP_ACCEPTED, 0);
    holds(memcmp(converted.numbers, numbers, sizeof numbers) == 0, "fp_convert: numbers");
    model.header = FP_WITH_ALONE;
    model.listed = 4;
    memcpy(model.events, events, sizeof events);
    holds(SAME(converted.model, model), "fp_convert: events");
    unchanged();
    read_events("events=4\nevent=1\nsync=0\nidle=1\nsync=1\nidle=2\nsync=2\nidle=1\nsync=2\n");
    conversions(FP_NOT_REPLACED, 2);
    model.places = 0;
    conversions(FP_NOT_HELD, 0);
}

static void markings(const uint8_t *text, size_t len) {
    read_marking = fp_read_marking(model, text, len);
    marking_at = marking;
    fp_read_at a = fp_read_marking_at(&model, text, len, &marking_at);
    holds(a.number == read_marking.number && a.beside == read_marking.beside && a.column == read_marking.column,
          "fp_read_marking_at: answer");
    column(a.number, a.column);
    holds(SAME(marking_at, *(a.number == FP_ACCEPTED ? &read_marking.marking : &marking)), "fp_read_marking_at: marking");
}

static void texts(const uint8_t *weights, size_t weights_len, const uint8_t *trace, size_t trace_len) {
    fp_weighed w = fp_check_weights(model, marking, weights, weights_len);
    fp_weighed w_at = fp_check_weights_at(&model, &marking, weights, weights_len);
    holds(SAME(w, w_at), "fp_check_weights_at");
    column(w.number, w.column);
    size_t head = trace_len < 6 ? trace_len : 6;
    stepped = fp_step(model, marking, trace + head, trace_len - head);
    marking_at = marking;
    fp_stepped_at s = fp_step_at(&model, &marking_at, trace + head, trace_len - head);
    holds(s.number == stepped.number && s.beside == stepped.beside && s.column == stepped.column && s.used == stepped.used,
          "fp_step_at: answer");
    column(s.number, s.column);
    holds(SAME(marking_at, stepped.marking), "fp_step_at: marking");
    holds(s.number == FP_ACCEPTED || SAME(marking_at, marking), "fp_step_at: refused");
    ran = fp_run(model, marking, trace, trace_len);
    marking_at = marking;
    fp_ran_at r = fp_run_at(&model, &marking_at, trace, trace_len);
    holds(r.number == ran.number && r.beside == ran.beside && r.column == ran.column && r.fired == ran.fired && r.at == ran.at,
          "fp_run_at: answer");
    column(r.number, r.column);
    holds(SAME(marking_at, ran.marking), "fp_run_at: marking");
}

static void held(size_t room) {
    memset(out, 46, sizeof out);
    memset(out_at, 46, sizeof out_at);
    fp_written w = fp_write_marking(model, marking, out, room);
    fp_written w_at = fp_write_marking_at(&model, &marking, out_at, room);
    holds(SAME(w, w_at) && SAME(out, out_at), "fp_write_marking_at");
    column(w.number, w.column);
    holds(fp_test_model_at(&model) == fp_test_model(model), "fp_test_model_at");
    holds(fp_test_marking_at(&model, &marking) == fp_test_marking(model, marking), "fp_test_marking_at");
}

/* A marking's text, held or refused. */
static void start(const char *text, size_t number, size_t beside) {
    markings((const uint8_t *)text, strlen(text));
    holds(read_marking.number == number && read_marking.beside == beside, "fp_read_marking: likes");
}

/* Likes in one line and in two, as many as can be and one more; then a step with room for one more like, and without. */
static void likes(void) {
    static const char step[] = "fire=1\ntake=1\ntoken=1:0\ngive=1\ntoken=2:0\n";
    read_events("events=1\nevent=1\nsync=0\n");
    start("start=2\ntoken=1:0*65535\ntoken=1:0\n", FP_NO_ROOM, 3);
    start("start=2\ntoken=1:0*65535\ntoken=1:0*65536\n", FP_RANGE, 3);
    start("start=1\ntoken=1:0*1\n", FP_SYNTAX, 2);
    for (uint16_t full = 0; full < 2; full++) {
        start(full ? "start=3\ntoken=2:0*65534\ntoken=1:0*3\ntoken=2:0\n" : "start=3\ntoken=2:0*65533\ntoken=1:0\ntoken=2:0\n",
              FP_ACCEPTED, 0);
        marking = read_marking.marking;
        const fp_entry *e = marking.entries;
        holds(marking.len == 2 && e[0].token.place == 1 && e[1].token.place == 2 && e[2].token.place == 0, "likes are held once");
        holds(e[0].times == 1 + 2 * full && e[1].times == FP_TIMES - 1 + full && e[2].times == 0, "the times of likes");
        fp_stepped_at s = fp_step_at(&model, &marking, (const uint8_t *)step, strlen(step));
        holds(full ? s.number == FP_NO_ROOM && s.beside == 4 : s.number == FP_ACCEPTED && s.used == strlen(step), "a step of likes");
        holds(full ? SAME(marking, read_marking.marking) : marking.len == 1 && e[0].times == FP_TIMES, "likes after a step");
    }
}

/* The plant with the longest marking: places of two digits, 32 counts of as many digits as can be, each net-token as often as can be. */
static void longest(void) {
    char *p = (char *)model_text;
    p += sprintf(p, "eos=1\nnets=1\nplaces=32\ntype=1");
    for (int i = 1; i < FP_PLACES; i++)
        p += sprintf(p, ",1");
    p += sprintf(p, "\nmoves=0\ninner=32\nsteps=0\nevents=0\nstart=%d\n", FP_TOKENS);
    for (int t = 0; t < FP_TOKENS; t++) {
        p += sprintf(p, "token=32:%d", FP_COUNT - t);
        for (int i = 1; i < FP_PLACES; i++)
            p += sprintf(p, ",%d", FP_COUNT);
        p += sprintf(p, "*%d\n", FP_TIMES);
    }
    size_t len = (size_t)(p - (char *)model_text);
    fp_read_at a = fp_read_model_at(model_text, len, &model, &marking);
    holds(a.number == FP_ACCEPTED, "the longest marking is read");
    fp_written w = fp_write_marking_at(&model, &marking, out, FP_MARKING_TEXT);
    holds(w.number == FP_ACCEPTED && w.bytes == FP_MARKING_TEXT, "FP_MARKING_TEXT");
    w = fp_write_marking_at(&model, &marking, out, FP_MARKING_TEXT - 1);
    holds(w.number == FP_BUFFER && w.beside == FP_MARKING_TEXT, "one byte less");
    p = (char *)weights_text + sprintf((char *)weights_text, "inv=1\nouter=-1000");
    for (int i = 1; i < FP_PLACES; i++)
        p += sprintf(p, ",-1000");
    p += sprintf(p, "\ninner=-1000");
    for (int i = 1; i < FP_PLACES; i++)
        p += sprintf(p, ",-1000");
    p += sprintf(p, "\n");
    const uint8_t run[] = {'r', 'u', 'n', '=', '1', '\n'};
    w = fp_listing(model_text, len, weights_text, (size_t)(p - (char *)weights_text), run, sizeof run, out, sizeof out);
    holds(w.number == FP_ACCEPTED && w.bytes > FP_MARKING_TEXT && w.bytes <= FP_LISTING_TEXT, "FP_LISTING_TEXT");
}

int main(int argc, char **argv) {
    if (argc != 2)
        return 2;
    size_t model_len = load(argv[1], "model", model_text);
    size_t weights_len = load(argv[1], "weights", weights_text);
    size_t trace_len = load(argv[1], "trace", trace_text);
    holds(fp_version() == FP_VERSION, "fp_version");
    holds(fp_read_model_at(model_text, model_len, &model, &marking).number == FP_ACCEPTED, "the folder's model");
    models(model_text, model_len);
    models(model_text, model_len - 1);
    models(NULL, 0);
    unchanged();
    held(sizeof out);
    held(1);
    size_t written = fp_write_marking(model, marking, out, sizeof out).bytes;
    memcpy(out_at, out, written);
    markings(out_at, written);
    markings(out_at, written - 1);
    texts(weights_text, weights_len, trace_text, trace_len);
    texts(weights_text, weights_len - 1, trace_text, trace_len - 1);
    texts(NULL, 0, NULL, 0);
    before = marking;
    marking.len = FP_TOKENS + 1;
    texts(weights_text, weights_len, trace_text, trace_len);
    held(sizeof out);
    marking = before;
    model.places = 0;
    texts(weights_text, weights_len, trace_text, trace_len);
    held(sizeof out);
    markings(out_at, written);
    longest();
    likes();
    replaced();
    return faults != 0;
}
