/*
 * Replays a script over the C modules, and writes the trace as `mt run` does.
 *
 * The configuration is that of the tables that this program was built with: of the job on standard input only what
 * stands after its line `=====` is read. Words: `early` has the requests of a boundary served as soon as interrupts
 * are released, before what the sequence left is entered.
 */
#define _GNU_SOURCE
#include "FlsTst.h"
#include "RamTst.h"
#include "script.h"

#include <inttypes.h>
#include <stdio.h>
#include <stdlib.h>
#include <string.h>

enum { MOST_BYTES = 1024, MOST_LINES = 1000000, BAD_SCRIPT = 4 };

static const struct shape shape = {MEMTST_RAM_WORDS, MEMTST_FLASH_WORDS, MEMTST_WIDTH};

/* The event under way: its line, its requests, how many were served, and the accesses made. */
static unsigned line_number;
static const struct event *event;
static int served, serving, runs, early, locked, error;
static uint32_t made;

static void fail(const char *what) {
    fflush(stdout);
    fprintf(stderr, "replay: line %u: %s\n", line_number, what);
    exit(1);
}

static void print(const char *text) { printf("%u %s\n", line_number, text); }

/* ---- calls */

static const char *const results[] = {"NOT_TESTED", "OK", "NOT_OK", "UNDEFINED"};
static const char *const ram_states[] = {"UNINIT", "STOPPED", "RUNNING", "SUSPENDED"};
static const char *const fls_states[] = {"UNINIT", "INIT", "RUNNING", "SUSPENDED", "ABORTED"};
static const char *const algorithms[] = {"?", "checkerboard", "march", "walk-path", "galpat", "transparent-galpat"};

/* A reply: what the call answers, or `ok` in its place. */
static char reply[64];

static void put_number(uint32_t number) { snprintf(reply, sizeof reply, "%" PRIu32, number); }

static void put_text(const char *text) { snprintf(reply, sizeof reply, "%s", text); }

static void put_version(Std_VersionInfoType it) {
    snprintf(reply, sizeof reply, "%u.%u.%u", it.sw_major_version, it.sw_minor_version, it.sw_patch_version);
}

static void put_interval(FlsTst_TestResultBgndType last) {
    if (last.result == FLSTST_RESULT_NOT_TESTED)
        put_text("none NOT_TESTED");
    else
        snprintf(reply, sizeof reply, "%" PRIu32 " %s", last.id, results[last.result]);
}

static void put_details(FlsTst_ErrorDetailsType details) {
    if (details.kind == FLSTST_NO_ERROR)
        put_text("none");
    else
        snprintf(reply, sizeof reply, "%s %" PRIu32 " %" PRIu32, details.kind == FLSTST_ERROR_BGND ? "bgnd" : "fgnd",
                 details.block, details.word);
}

static void call_ram(enum service service, uint32_t number) {
    Std_VersionInfoType version;
    switch (service) {
    case RAM_INIT: RamTst_Init(&RamTst_Config); break;
    case RAM_DEINIT: RamTst_DeInit(); break;
    case RAM_STOP: RamTst_Stop(); break;
    case RAM_ALLOW: RamTst_Allow(); break;
    case RAM_SUSPEND: RamTst_Suspend(); break;
    case RAM_RESUME: RamTst_Resume(); break;
    case RAM_STATUS: put_text(ram_states[RamTst_GetExecutionStatus()]); break;
    case RAM_RESULT: put_text(results[RamTst_GetTestResult()]); break;
    case RAM_RESULT_OF: put_text(results[RamTst_GetTestResultPerBlock(number)]); break;
    case RAM_PARAMS: put_number(RamTst_GetAlgParams()); break;
    case RAM_ALGORITHM: put_text(algorithms[RamTst_GetTestAlgorithm()]); break;
    case RAM_CELLS: put_number(RamTst_GetNumberOfTestedCells()); break;
    case RAM_SELECT: RamTst_SelectAlgParams(number); break;
    case RAM_CHANGE: RamTst_ChangeNumberOfTestedCells(number); break;
    case RAM_FULL: runs = 1, RamTst_RunFullTest(); break;
    case RAM_PARTIAL: runs = 1, RamTst_RunPartialTest(number); break;
    case RAM_VERSION: RamTst_GetVersionInfo(&version), put_version(version); break;
    default: runs = 1, RamTst_MainFunction(); break;
    }
}

static void start_fgnd(uint32_t number) {
    runs = 1;
    Std_ReturnType result = FlsTst_StartFgnd(number);
    if (result != (error ? E_NOT_OK : E_OK)) fail("StartFgnd answers otherwise than it reports");
}

static void call_fls(enum service service, uint32_t number) {
    Std_VersionInfoType version;
    switch (service) {
    case FLS_INIT: FlsTst_Init(&FlsTst_Config); break;
    case FLS_DEINIT: FlsTst_DeInit(); break;
    case FLS_FGND: start_fgnd(number); break;
    case FLS_ABORT: FlsTst_Abort(); break;
    case FLS_SUSPEND: FlsTst_Suspend(); break;
    case FLS_RESUME: FlsTst_Resume(); break;
    case FLS_STATE: put_text(fls_states[FlsTst_GetCurrentState()]); break;
    case FLS_RESULT_BGND: put_interval(FlsTst_GetTestResultBgnd()); break;
    case FLS_RESULT_FGND: put_text(results[FlsTst_GetTestResultFgnd()]); break;
    case FLS_DETAILS: put_details(FlsTst_GetErrorDetails()); break;
    case FLS_VERSION: FlsTst_GetVersionInfo(&version), put_version(version); break;
    default: runs = 1, FlsTst_MainFunction(); break;
    }
}

static void put_word(uint64_t word) { snprintf(reply, sizeof reply, "%0*" PRIx64, MEMTST_WIDTH / 4, word); }

/* ---- operations */

static uint64_t fit(uint64_t word) { return (MemTst_WordType)word; }

static void add(const struct operation *operation) {
    uint64_t sum = fit(memory_read(operation->first) + operation->word);
    memory_write(operation->first, sum);
    put_word(sum);
}

static void copy(const struct operation *operation) {
    uint64_t word = memory_read(operation->first);
    memory_write(operation->second, word);
    put_word(word);
}

/* Does an operation, and leaves its reply. */
static void operate(const struct operation *operation) {
    put_text("ok");
    error = 0;
    switch (operation->kind) {
    case READ: put_word(memory_read(operation->first)); break;
    case WRITE: memory_write(operation->first, operation->word); break;
    case ADD: add(operation); break;
    case COPY: copy(operation); break;
    case FLASH: put_word(flash_read(operation->first)); break;
    case CALL:
        if (operation->service < FLS_INIT)
            call_ram(operation->service, operation->first);
        else
            call_fls(operation->service, operation->first);
        if (error) snprintf(reply, sizeof reply, "refused %d", error);
    }
}

/* ---- requests */

static void serve(const struct request *request, uint32_t wait) {
    printf("%u irq %d at %" PRIu32 " wait %" PRIu32 "\n", line_number, served, made, wait);
    for (int i = 0; i < request->operations; i++) {
        operate(&request->operation[i]);
        printf("%u - %s\n", line_number, reply);
    }
}

/* Serves the requests that are due, or all that are left. What a handler's call leaves is no reply of the event. */
static void serve_requests(int all) {
    int before = error;
    char kept[sizeof reply];
    if (serving || !event) return;
    memcpy(kept, reply, sizeof reply);
    serving = 1;
    while (served < event->requests && (all || event->request[served].offset <= made)) {
        const struct request *request = &event->request[served++];
        serve(request, request->offset <= made ? made - request->offset : 0);
    }
    serving = 0;
    error = before;
    memcpy(reply, kept, sizeof reply);
}

/* ---- what the hooks call */

void board_lock(void) {
    if (locked) fail("a lock inside a lock");
    locked = 1;
}

void board_unlock(void) {
    if (!locked) fail("no lock is held");
    locked = 0;
    if (early) serve_requests(0);
}

static int areas;

void board_enter(void) {
    if (locked || areas) fail("an area inside a lock or an area");
    areas = 1;
}

void board_exit(void) {
    if (!areas) fail("no area is entered");
    areas = 0;
    serve_requests(0);
}

uint32_t board_is_urgent(void) {
    for (int i = served; event && i < event->requests; i++)
        if (event->request[i].urgent && event->request[i].offset <= made) return 1;
    return 0;
}

static void count_access(uint32_t number, uint32_t size) {
    if (!locked) fail("an access without a lock");
    if (number >= size) fail("an access outside the memory");
    made++;
}

uint64_t board_load(uint32_t number) {
    count_access(number, shape.ram);
    return memory_read(number);
}

void board_store(uint32_t number, uint64_t word) {
    count_access(number, shape.ram);
    memory_write(number, word);
}

uint64_t board_load_flash(uint32_t number) {
    count_access(number, shape.flash);
    return flash_read(number);
}

void board_refuse(uint32_t service, uint32_t it) {
    (void)service;
    error = (int)it;
}

/* ---- events */

static void run_operation(const struct event *it) {
    event = it;
    served = runs = 0;
    made = 0;
    operate(&it->operation);
    int refused = error;
    serve_requests(1);
    event = NULL;
    if (runs && !refused) snprintf(reply, sizeof reply, "ran %" PRIu32, made);
    print(reply);
}

static void run_event(const struct event *it) {
    const uint32_t flash_word = it->operation.first;
    switch (it->kind) {
    case NOTHING: break;
    case OPERATION: run_operation(it); break;
    case INJECT: print(memory_inject(it->fault) ? "ok" : "present"); break;
    case HEAL: memory_heal(), print("ok"); break;
    case BURN: flash_write(flash_word, it->operation.word), print("ok"); break;
    case FLIP: flash_write(flash_word, flash_read(flash_word) ^ (uint64_t)1 << it->bit), print("ok"); break;
    }
}

/* Runs a line, or answers why it is refused. */
static struct refusal run_line(const char *line, size_t length) {
    static struct event it;
    if (line_number > MOST_LINES) return (struct refusal){11, 1};
    if (length > MOST_BYTES) return (struct refusal){10, MOST_BYTES + 1};
    struct refusal refusal = read_line(line, length, shape, &it);
    if (!refusal.rule) run_event(&it);
    return refusal;
}

static void skip_configuration(char **line, size_t *room) {
    ssize_t length;
    while ((length = getline(line, room, stdin)) >= 0)
        if (!strcmp(*line, "=====\n") || !strcmp(*line, "=====")) return;
}

int main(int count, char **words) {
    char *line = NULL;
    size_t room = 0;
    ssize_t length;
    early = count > 1 && !strcmp(words[1], "early");
    skip_configuration(&line, &room);
    memory_power_up(shape.ram, shape.flash, shape.width, MEMTST_INITIAL);
    while ((length = getline(&line, &room, stdin)) >= 0) {
        line_number++;
        if (length && line[length - 1] == '\n') length--;
        struct refusal refusal = run_line(line, (size_t)length);
        if (refusal.rule) {
            printf("bad line %u %d %zu\n", line_number, refusal.rule, refusal.place);
            return BAD_SCRIPT;
        }
    }
    printf("end ok %u\n", line_number);
    return 0;
}
