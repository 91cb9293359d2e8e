/* The OpenFlow 1.3.5 switch `ofswitch` as a library: calls from bytes to bytes (docs/EMBED.md).

   Each call gives what the command of its name prints: with `words` what it prints for a person, otherwise JSON (docs/JSON.md). A line about a port that
   is named and missing is not part of it: status 5 says so. Bytes that go in are a pointer and a length.
   The text goes into the caller's buffer `text` of `text_room` bytes: as much of it as there is room for, without a zero at its end. `answer->length`
   is the length of the whole text, so a caller whose buffer was too small calls again with a larger one.

   No pointer may be null, also beside a length of 0; `text` and `answer` overlap neither each other nor what goes in. The caller owns all that it
   passes. The library takes memory by malloc, realloc and free, and gives all of it back before a call ends, except what a living switch has
   (`ofswitch_begin`). Calls from several threads at once are allowed if these three are, and if no two are on the same living switch. They align a block to each power of two up to 16 that divides its size, as
   those of the GNU C library do. No call may be made in a signal handler, or in the forked child of a process with threads. No call reads or writes a
   file, a clock or a socket. */
#ifndef OFSWITCH_H
#define OFSWITCH_H

#include <stdbool.h>
#include <stddef.h>
#include <stdint.h>
#include <stdio.h>
#include <stdlib.h>

#ifdef __cplusplus
extern "C" {
#endif

/* Exit statuses of the commands. */
enum {
    OFSWITCH_DONE = 0,      /* all is well */
    OFSWITCH_NO_PORT = 1,   /* the switch does not have the port of `trace`, or one that `paths` is asked for */
    OFSWITCH_BAD_FILE = 2,  /* a file, a row or words are at fault */
    OFSWITCH_NO_MEMORY = 3, /* memory ran out: there is no text, or a part of it, as of a run that of some first lines */
    OFSWITCH_FOUND = 4,     /* `check` found something; a requirement fails; `import` left something out; the switches of `diff` differ */
    OFSWITCH_OPEN = 5       /* ports are named that the switch does not have; a requirement, or frames of `diff` or `paths`, are undecided */
};

/* Places to which `paths` may be asked to lead, beside the number of a port. */
#define OFSWITCH_ANYWHERE UINT32_C(0)
#define OFSWITCH_TO_CONTROLLER UINT32_C(0xfffffffd)
#define OFSWITCH_TO_NOTHING UINT32_C(0xffffffff)

/* What a call gave beside its text. */
struct ofswitch_answer {
    size_t length;  /* of the whole text, in bytes */
    uint64_t line;  /* the line of the file that is at fault, from 1; 0: none */
    uint8_t status; /* one of the above */
};

/* Plays an event file (docs/EVENTS.md) on a new switch with this datapath id, and gives what `replay` prints. */
void ofswitch_replay(const uint8_t *events, size_t events_length, uint64_t dpid, uint8_t *text, size_t text_room, struct ofswitch_answer *answer);

/* The same in words, an object in a line for each line of the file that is not empty, as `replay --explain --json`. */
void ofswitch_explain(const uint8_t *events, size_t events_length, uint64_t dpid, uint8_t *text, size_t text_room, struct ofswitch_answer *answer);

/* What becomes of a frame that the switch of a file receives at a port, as `trace` and `trace --json`. The file is a flow text, an event file, or what ovs-ofctl
   prints, as its first line says; a switch of flow entries has ports 1 to 4 and those that they name. */
void ofswitch_trace(const uint8_t *file, size_t file_length, uint32_t port, const uint8_t *frame, size_t frame_length, bool words, uint8_t *text,
                    size_t text_room, struct ofswitch_answer *answer);

/* The report on the flow tables of a file, as `check` and `check --json`. The search for each entry takes so many steps at most (100,000 of the
   command). A table of Open vSwitch that the switch cannot run is at fault, also with `words`. */
void ofswitch_check(const uint8_t *file, size_t file_length, size_t steps, bool words, uint8_t *text, size_t text_room, struct ofswitch_answer *answer);

/* The same, and the verdicts on requirements, one a line (docs/REQUIRE.md), as `check --require`. The requirements are read first: with status 2 and a file
   that ofswitch_check reads, `line` is theirs. `steps` also is how many steps the runs of all frames take together at most, for each requirement. */
void ofswitch_require(const uint8_t *file, size_t file_length, const uint8_t *requirements, size_t requirements_length, size_t steps, bool words,
                      uint8_t *text, size_t text_room, struct ofswitch_answer *answer);

/* A table of Open vSwitch as `import --json` gives it: its flow text, or the lines that are refused. `skip` leaves lines and actions out that cannot be
   imported, `renumber` gives tables the numbers 0 to 15. */
void ofswitch_import(const uint8_t *table, size_t table_length, bool skip, bool renumber, uint8_t *text, size_t text_room,
                     struct ofswitch_answer *answer);

/* Which frames the switches of two files treat differently, as `diff` and `diff --json`: the frames that leave, and unless `frames` is given also the packets to
   the controller. The runs of all frames take so many steps together at most, and each search for a frame as many (100,000 of the command). If a file is
   at fault, `line` is the line of the first one that is. */
void ofswitch_diff(const uint8_t *first, size_t first_length, const uint8_t *second, size_t second_length, bool frames, size_t steps, bool words,
                   uint8_t *text, size_t text_room, struct ofswitch_answer *answer);

/* Which steps the frames take that the switch of a file receives, as `paths` and `paths --json`. Only frames that come in by `port`, unless it is 0,
   and that match `within`, as of `paths --match`. Only paths that lead to the place `to`: a port, or one of the three above. With `each` no two sets of frames are one
   path. `steps` is that of ofswitch_diff. If `within` is at fault, the status is OFSWITCH_BAD_FILE and `line` is 0. */
void ofswitch_paths(const uint8_t *file, size_t file_length, uint32_t port, const uint8_t *within, size_t within_length, uint32_t to, bool each,
                    size_t steps, bool words, uint8_t *text, size_t text_room, struct ofswitch_answer *answer);

/* The bytes of the frame that words say, such as "tcp,nw_src=10.0.0.1,tp_dst=80", as `trace` takes them (docs/TRACE.md). It comes in by `*port`, unless the
   words say another one, which is `*port` then. */
void ofswitch_frame_in_words(uint32_t *port, const uint8_t *words, size_t words_length, uint8_t *frame, size_t frame_room,
                             struct ofswitch_answer *answer);

/* A switch that lives between calls. It is in memory of the caller, of ofswitch_size() bytes, aligned to 16 as malloc aligns it, which nobody else reads or
   writes, copies or moves from ofswitch_begin to ofswitch_end. Each call from begin to end is on a switch that has begun and not ended.

   What happens to it are the rows of an event file (docs/EVENTS.md), and the text of a call is what `replay` prints for its row: the messages that are
   answered, the frames that leave. A text that does not fit the buffer is lost except for its front, since the switch has taken the row; 1 MiB is enough
   for most. Status 3: memory ran out, and the switch is lost: each later call on it has status 3 too, and does nothing, except ofswitch_end. */
struct ofswitch_switch;

size_t ofswitch_size(void);

/* A new switch with this datapath id, without a connection, flow entries, groups and ports. */
void ofswitch_begin(uint64_t dpid, struct ofswitch_switch *at);

/* A row, without the end of its line: "connect", "lost", "port add 1 0200000000a1 p1 up", and all others. Status 2: it is none, and nothing happened. */
void ofswitch_row(struct ofswitch_switch *at, const uint8_t *row, size_t row_length, uint8_t *text, size_t text_room, struct ofswitch_answer *answer);

/* Bytes of the controller, cut anywhere: a row `c`. */
void ofswitch_feed(struct ofswitch_switch *at, const uint8_t *bytes, size_t bytes_length, uint8_t *text, size_t text_room, struct ofswitch_answer *answer);

/* A frame comes in by a port: a row `f`. */
void ofswitch_frame(struct ofswitch_switch *at, uint32_t port, const uint8_t *frame, size_t frame_length, uint8_t *text, size_t text_room,
                    struct ofswitch_answer *answer);

/* The time is this many nanoseconds after the start: a row `t`. */
void ofswitch_moment(struct ofswitch_switch *at, uint64_t nanoseconds, uint8_t *text, size_t text_room, struct ofswitch_answer *answer);

/* Gives back all memory of the switch, except that in which it is. */
void ofswitch_end(struct ofswitch_switch *at);

/* The same with memory of malloc: NULL if there is none. */
static inline struct ofswitch_switch *ofswitch_new(uint64_t dpid) {
    struct ofswitch_switch *at = (struct ofswitch_switch *)malloc(ofswitch_size());
    if (at != NULL)
        ofswitch_begin(dpid, at);
    return at;
}

static inline void ofswitch_free(struct ofswitch_switch *at) {
    if (at != NULL)
        ofswitch_end(at);
    free(at);
}

/* A port is added, with its hardware address, a name of 1 to 15 lower-case letters and digits, and the state of its link: a row `port add`. Status 2: the
   name is none. Other changes of ports are rows (`port link 1 down`, `port remove 1`). */
static inline void ofswitch_port(struct ofswitch_switch *at, uint32_t port, const uint8_t hw[6], const char *name, bool up, uint8_t *text,
                                 size_t text_room, struct ofswitch_answer *answer) {
    char row[64];
    int length = snprintf(row, sizeof row, "port add %lu %02x%02x%02x%02x%02x%02x %.16s %s", (unsigned long)port, hw[0], hw[1], hw[2], hw[3], hw[4], hw[5],
                          name, up ? "up" : "down");
    ofswitch_row(at, (const uint8_t *)row, (size_t)length, text, text_room, answer);
}

#ifdef __cplusplus
}
#endif

#endif
