/* The lines of a script: docs/SCRIPT.md has their form. */
#ifndef SCRIPT_H
#define SCRIPT_H

#include "board.h"

#include <stddef.h>

enum { MOST_REQUESTS = 16, MOST_OPERATIONS = 8 };

enum module { RAM, FLS };

/* The services that a line may name. */
enum service {
    RAM_INIT, RAM_DEINIT, RAM_STOP, RAM_ALLOW, RAM_SUSPEND, RAM_RESUME, RAM_STATUS, RAM_RESULT, RAM_RESULT_OF,
    RAM_PARAMS, RAM_ALGORITHM, RAM_CELLS, RAM_SELECT, RAM_CHANGE, RAM_FULL, RAM_PARTIAL, RAM_VERSION, RAM_MAIN,
    FLS_INIT, FLS_DEINIT, FLS_FGND, FLS_ABORT, FLS_SUSPEND, FLS_RESUME, FLS_STATE, FLS_RESULT_BGND, FLS_RESULT_FGND,
    FLS_DETAILS, FLS_VERSION, FLS_MAIN
};

enum operation_kind { READ, WRITE, ADD, COPY, FLASH, CALL };

/* An operation of the application, or a call. */
struct operation {
    enum operation_kind kind;
    uint32_t first, second; /* addresses; of a call the argument is `first` */
    uint64_t word;
    enum service service;
};

struct request {
    uint32_t offset;
    int urgent;
    int operations;
    struct operation operation[MOST_OPERATIONS];
};

enum event_kind { NOTHING, OPERATION, INJECT, HEAL, BURN, FLIP };

struct event {
    enum event_kind kind;
    struct operation operation; /* also the flash word of BURN and FLIP */
    struct fault fault;
    uint32_t bit;
    int requests;
    struct request request[MOST_REQUESTS];
};

struct shape {
    uint32_t ram, flash, width;
};

/* The rule that a line breaks, 0 for none, and the place of the token that breaks it. */
struct refusal {
    int rule;
    size_t place;
};

struct refusal read_line(const char *line, size_t length, struct shape shape, struct event *event);

#endif
