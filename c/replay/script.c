/* Reads a line, token by token: the first token that breaks a rule refuses it. */
#include "script.h"

#include <string.h>

enum {
    SPELLING = 1, NUMBER, ADDRESS, WORD_TOO_WIDE, OFFSETS_FALL, TOO_MANY_REQUESTS, TOO_MANY_OPS, NOT_IN_HANDLER,
    FAULT_REFUSED
};

/* A line that is read: the token at hand, and the refusal once there is one. */
struct reader {
    const char *line;
    size_t length, at, size;
    struct shape shape;
    struct refusal refusal;
};

static int is_sign(char byte) { return byte == '[' || byte == ']' || byte == ';'; }

/* Goes to the next token. Its size is 0 at the line's end. */
static void next(struct reader *r) {
    r->at += r->size;
    while (r->at < r->length && r->line[r->at] == ' ') r->at++;
    size_t end = r->at;
    if (end < r->length && is_sign(r->line[end]))
        end++;
    else
        while (end < r->length && r->line[end] != ' ' && !is_sign(r->line[end])) end++;
    r->size = end - r->at;
}

static int refuse(struct reader *r, int rule) {
    if (!r->refusal.rule) r->refusal = (struct refusal){rule, (r->size ? r->at : r->length) + 1};
    return 0;
}

static int is_text(const struct reader *r, const char *text) {
    return strlen(text) == r->size && !memcmp(r->line + r->at, text, r->size);
}

static int is_word(const struct reader *r) { return r->size && !is_sign(r->line[r->at]); }

/* Takes a token of a fixed text. */
static int take(struct reader *r, const char *text) {
    if (!is_text(r, text)) return 0;
    next(r);
    return 1;
}

static int digits(const char *text, size_t size, uint64_t *number) {
    *number = 0;
    if (!size || size > 10 || (size > 1 && text[0] == '0')) return 0;
    for (size_t i = 0; i < size; i++) {
        if (text[i] < '0' || text[i] > '9') return 0;
        *number = *number * 10 + (uint64_t)(text[i] - '0');
    }
    return *number <= UINT32_MAX;
}

static int number(struct reader *r, uint32_t *it) {
    uint64_t value;
    if (!is_word(r)) return refuse(r, SPELLING);
    if (!digits(r->line + r->at, r->size, &value)) return refuse(r, NUMBER);
    *it = (uint32_t)value;
    next(r);
    return 1;
}

static int address_below(struct reader *r, uint32_t size, uint32_t *it) {
    struct reader here = *r;
    if (!number(r, it)) return 0;
    if (*it < size) return 1;
    *r = here;
    return refuse(r, ADDRESS);
}

static int address(struct reader *r, uint32_t *it) { return address_below(r, r->shape.ram, it); }

static int hex_digit(char byte) {
    if (byte >= '0' && byte <= '9') return byte - '0';
    if (byte >= 'a' && byte <= 'f') return byte - 'a' + 10;
    if (byte >= 'A' && byte <= 'F') return byte - 'A' + 10;
    return -1;
}

static int word(struct reader *r, uint64_t *it) {
    if (!is_word(r)) return refuse(r, SPELLING);
    if (r->size > 16) return refuse(r, NUMBER);
    *it = 0;
    for (size_t i = 0; i < r->size; i++) {
        int digit = hex_digit(r->line[r->at + i]);
        if (digit < 0) return refuse(r, NUMBER);
        *it = *it << 4 | (uint64_t)digit;
    }
    if (r->shape.width < 64 && *it >> r->shape.width) return refuse(r, WORD_TOO_WIDE);
    next(r);
    return 1;
}

static int bit(struct reader *r, int *it) {
    if (!is_word(r)) return refuse(r, SPELLING);
    if (!is_text(r, "0") && !is_text(r, "1")) return refuse(r, NUMBER);
    *it = is_text(r, "1");
    next(r);
    return 1;
}

/* A spot, in another word than that of `apart` where there is one. */
static int spot_below(struct reader *r, uint32_t size, const struct spot *apart, struct spot *it) {
    if (!is_word(r)) return refuse(r, SPELLING);
    const char *text = r->line + r->at, *point = memchr(text, '.', r->size);
    uint64_t word_number, bit_number;
    if (!point) return refuse(r, NUMBER);
    size_t before = (size_t)(point - text), after = r->size - before - 1;
    if (!digits(text, before, &word_number) || !digits(point + 1, after, &bit_number)) return refuse(r, NUMBER);
    if (word_number >= size) return refuse(r, ADDRESS);
    if (bit_number >= r->shape.width || (apart && word_number == apart->word)) return refuse(r, FAULT_REFUSED);
    *it = (struct spot){(uint32_t)word_number, (uint32_t)bit_number};
    next(r);
    return 1;
}

static int spot(struct reader *r, struct spot *it) { return spot_below(r, r->shape.ram, NULL, it); }

static int spot_apart(struct reader *r, const struct spot *apart, struct spot *it) {
    return spot_below(r, r->shape.ram, apart, it);
}

/* One of two fixed words. */
static int either(struct reader *r, const char *yes, const char *no, int *it) {
    *it = is_text(r, yes);
    if (!*it && !is_text(r, no)) return refuse(r, SPELLING);
    next(r);
    return 1;
}

/* The first address of a decoder fault, and the other one. */
static int addresses(struct reader *r, struct fault *fault) {
    if (!address(r, &fault->aggressor.word)) return 0;
    struct reader here = *r;
    if (!address(r, &fault->victim.word)) return 0;
    if (fault->victim.word != fault->aggressor.word) return 1;
    *r = here;
    return refuse(r, FAULT_REFUSED);
}

static int read_fault(struct reader *r, struct fault *fault) {
    if (take(r, "sa")) return fault->kind = STUCK_AT, spot(r, &fault->victim) && bit(r, &fault->value);
    if (take(r, "tf-up")) return fault->kind = CANNOT_RISE, spot(r, &fault->victim);
    if (take(r, "tf-down")) return fault->kind = CANNOT_FALL, spot(r, &fault->victim);
    if (take(r, "cfin"))
        return fault->kind = INVERT, either(r, "up", "down", &fault->rises) && spot(r, &fault->aggressor) &&
               spot_apart(r, &fault->aggressor, &fault->victim);
    if (take(r, "cfid"))
        return fault->kind = FORCE, either(r, "up", "down", &fault->rises) && spot(r, &fault->aggressor) &&
               spot_apart(r, &fault->aggressor, &fault->victim) && bit(r, &fault->value);
    if (take(r, "cfst"))
        return fault->kind = STATE, bit(r, &fault->holds) && spot(r, &fault->aggressor) &&
               spot_apart(r, &fault->aggressor, &fault->victim) && bit(r, &fault->value);
    if (take(r, "af-none")) return fault->kind = NO_CELL, address(r, &fault->aggressor.word) && word(r, &fault->seen);
    if (take(r, "af-also"))
        return fault->kind = ALSO, addresses(r, fault) && either(r, "and", "or", &fault->wired_and);
    if (take(r, "af-instead")) return fault->kind = INSTEAD, addresses(r, fault);
    return refuse(r, SPELLING);
}

/* The services of both modules: whether a handler may call it, and whether a number follows. */
static const struct {
    const char *name;
    enum module module;
    enum service service;
    int in_handler, has_number;
} services[] = {
    {"Init", RAM, RAM_INIT, 0, 0},
    {"DeInit", RAM, RAM_DEINIT, 0, 0},
    {"Stop", RAM, RAM_STOP, 1, 0},
    {"Allow", RAM, RAM_ALLOW, 1, 0},
    {"Suspend", RAM, RAM_SUSPEND, 1, 0},
    {"Resume", RAM, RAM_RESUME, 1, 0},
    {"GetExecutionStatus", RAM, RAM_STATUS, 1, 0},
    {"GetTestResult", RAM, RAM_RESULT, 1, 0},
    {"GetTestResultPerBlock", RAM, RAM_RESULT_OF, 1, 1},
    {"GetAlgParams", RAM, RAM_PARAMS, 0, 0},
    {"GetTestAlgorithm", RAM, RAM_ALGORITHM, 0, 0},
    {"GetNumberOfTestedCells", RAM, RAM_CELLS, 0, 0},
    {"SelectAlgParams", RAM, RAM_SELECT, 0, 1},
    {"ChangeNumberOfTestedCells", RAM, RAM_CHANGE, 0, 1},
    {"RunFullTest", RAM, RAM_FULL, 0, 0},
    {"RunPartialTest", RAM, RAM_PARTIAL, 0, 1},
    {"GetVersionInfo", RAM, RAM_VERSION, 0, 0},
    {"Init", FLS, FLS_INIT, 0, 0},
    {"DeInit", FLS, FLS_DEINIT, 0, 0},
    {"StartFgnd", FLS, FLS_FGND, 0, 1},
    {"Abort", FLS, FLS_ABORT, 1, 0},
    {"Suspend", FLS, FLS_SUSPEND, 1, 0},
    {"Resume", FLS, FLS_RESUME, 1, 0},
    {"GetCurrentState", FLS, FLS_STATE, 1, 0},
    {"GetTestResultBgnd", FLS, FLS_RESULT_BGND, 1, 0},
    {"GetTestResultFgnd", FLS, FLS_RESULT_FGND, 1, 0},
    {"GetErrorDetails", FLS, FLS_DETAILS, 0, 0},
    {"GetVersionInfo", FLS, FLS_VERSION, 0, 0},
};

/* A service after its module's word. */
static int read_call(struct reader *r, enum module module, int in_handler, struct operation *operation) {
    for (size_t i = 0; i < sizeof services / sizeof services[0]; i++) {
        if (services[i].module != module || !is_text(r, services[i].name)) continue;
        if (in_handler && !services[i].in_handler) return refuse(r, NOT_IN_HANDLER);
        next(r);
        operation->kind = CALL;
        operation->service = services[i].service;
        return !services[i].has_number || number(r, &operation->first);
    }
    return refuse(r, SPELLING);
}

/* An operation of the application, after its word was looked at. */
static int read_operation(struct reader *r, struct operation *operation) {
    if (take(r, "r")) return operation->kind = READ, address(r, &operation->first);
    if (take(r, "w")) return operation->kind = WRITE, address(r, &operation->first) && word(r, &operation->word);
    if (take(r, "add")) return operation->kind = ADD, address(r, &operation->first) && word(r, &operation->word);
    if (take(r, "copy")) return operation->kind = COPY, address(r, &operation->first) && address(r, &operation->second);
    if (take(r, "f")) return operation->kind = FLASH, address_below(r, r->shape.flash, &operation->first);
    return refuse(r, SPELLING);
}

static int begins_operation(const struct reader *r) {
    static const char *const words[] = {"r", "w", "add", "copy", "f", "ram", "fls"};
    for (size_t i = 0; i < sizeof words / sizeof words[0]; i++)
        if (is_text(r, words[i])) return 1;
    return 0;
}

static int read_handler_operation(struct reader *r, enum module module, struct request *request) {
    if (!begins_operation(r)) return refuse(r, SPELLING);
    if (request->operations == MOST_OPERATIONS) return refuse(r, TOO_MANY_OPS);
    struct operation *operation = &request->operation[request->operations++];
    if (is_text(r, module == RAM ? "fls" : "ram")) return refuse(r, NOT_IN_HANDLER);
    if (take(r, module == RAM ? "ram" : "fls")) return read_call(r, module, 1, operation);
    return read_operation(r, operation);
}

static int read_handler(struct reader *r, enum module module, struct request *request) {
    if (!take(r, "[")) return 1;
    if (take(r, "]")) return 1;
    do
        if (!read_handler_operation(r, module, request)) return 0;
    while (take(r, ";"));
    return take(r, "]") || refuse(r, SPELLING);
}

/* The requests that end a running event's line. */
static int read_requests(struct reader *r, enum module module, struct event *event) {
    uint32_t before = 0;
    while (r->size) {
        char mark = r->line[r->at];
        uint64_t offset;
        if (mark != '@' && mark != '!') return refuse(r, SPELLING);
        if (!digits(r->line + r->at + 1, r->size - 1, &offset)) return refuse(r, NUMBER);
        if (offset < before) return refuse(r, OFFSETS_FALL);
        if (event->requests == MOST_REQUESTS) return refuse(r, TOO_MANY_REQUESTS);
        struct request *request = &event->request[event->requests++];
        *request = (struct request){.offset = before = (uint32_t)offset, .urgent = mark == '!'};
        next(r);
        if (!read_handler(r, module, request)) return 0;
    }
    return 1;
}

static int is_running(enum service service) {
    return service == RAM_FULL || service == RAM_PARTIAL || service == FLS_FGND;
}

static int ends(struct reader *r) { return !r->size || refuse(r, SPELLING); }

static int read_module(struct reader *r, enum module module, struct event *event) {
    event->kind = OPERATION;
    if (!read_call(r, module, 0, &event->operation)) return 0;
    return is_running(event->operation.service) ? read_requests(r, module, event) : ends(r);
}

static int read_tick(struct reader *r, struct event *event) {
    int is_ram;
    event->kind = OPERATION;
    event->operation.kind = CALL;
    if (!either(r, "ram", "fls", &is_ram)) return 0;
    event->operation.service = is_ram ? RAM_MAIN : FLS_MAIN;
    return read_requests(r, is_ram ? RAM : FLS, event);
}

static int read_flip(struct reader *r, struct event *event) {
    struct spot it;
    event->kind = FLIP;
    if (!spot_below(r, r->shape.flash, NULL, &it)) return 0;
    event->operation.first = it.word;
    event->bit = it.bit;
    return ends(r);
}

static int read_event(struct reader *r, struct event *event) {
    if (take(r, "ram")) return read_module(r, RAM, event);
    if (take(r, "fls")) return read_module(r, FLS, event);
    if (take(r, "tick")) return read_tick(r, event);
    if (take(r, "app")) return event->kind = OPERATION, read_operation(r, &event->operation) && ends(r);
    if (take(r, "inject")) return event->kind = INJECT, read_fault(r, &event->fault) && ends(r);
    if (take(r, "heal")) return event->kind = HEAL, ends(r);
    if (take(r, "burn"))
        return event->kind = BURN,
               address_below(r, r->shape.flash, &event->operation.first) && word(r, &event->operation.word) && ends(r);
    if (take(r, "flip")) return read_flip(r, event);
    return refuse(r, SPELLING);
}

struct refusal read_line(const char *line, size_t length, struct shape shape, struct event *event) {
    struct reader r = {.line = line, .length = length, .shape = shape};
    memset(event, 0, sizeof *event);
    next(&r);
    if (r.size && line[r.at] != '#') read_event(&r, event);
    return r.refusal;
}
