/* Coordinators of ACPI processor power (ACPI 6.5, chapter 8), for callers in C11 and C++17.
 *
 *     machine   reads definition blocks, makes the plan of their processors, and is the coordinator of one
 *               caller for idle, performance and throttling states
 *     endless   one caller's place at a coordinator that several callers share, for the same requests, each in
 *               two steps: begun, and finished once its operations are done
 *     seat      the same where each request is one call, and the history is kept. It ends after 65,536 requests:
 *               its seats answer YEQ_FULL from then on
 *     cppc      the coordinator of one caller for desired performance, by _CPC
 *
 * A coordinator operates no register. Each request leaves a list of operations, and the caller does them, in
 * order. Callers by yeq_endless do theirs between the two steps of the request: nobody else has begun one then,
 * and so they are done in the history's order. Callers by yeq_seat do theirs in the order of the history's
 * numbers, which yeq_seat_ops tells.
 *
 * Each call answers a number of enum yeq_status. Where that isn't YEQ_DONE, all handles, and what the call would
 * have written, are as they were, but for what is said at YEQ_ROOM, at struct yeq_fault, and at yeq_seat_ops. A seat
 * also learns from YEQ_FULL, YEQ_STOPPED and YEQ_NUMBERS what it had not seen.
 *
 * The library has no state of its own, starts no thread and waits for nothing. It takes memory by the three
 * functions at the end of this header, which the program defines, and wants memcpy, memmove and memset from
 * outside, no more. A call that is told to take none takes none.
 *
 * What no call can test, and the caller owes:
 *   - A handle is all zeros before it is opened, and is changed by calls of this library alone. It is never
 *     copied. It may be moved where the old place is then set to zeros.
 *   - A handle is in one call at a time. Different handles may be in calls at the same time, also seats of one
 *     coordinator. Whatever hands a handle to another thread orders memory, as a lock does.
 *   - A pointer that is handed in isn't null, points to what its type says, and no two of a call overlap. One
 *     with a room or a length points to as many elements, and may be any pointer but null where these are 0.
 *   - Both handles of yeq_seat_join, and of yeq_endless_join, are seats of one coordinator.
 *   - What yeq_endless_finish is told of operations is true.
 *   - No call comes from a signal or interrupt handler that cut off another call, or the program's allocator.
 */
#ifndef YEQORWAS_H
#define YEQORWAS_H

#include <stdbool.h>
#include <stddef.h>
#include <stdint.h>

#ifdef __cplusplus
#define YEQ_ASSERT(condition) static_assert(condition, #condition)
extern "C" {
#else
#define YEQ_ASSERT(condition) _Static_assert(condition, #condition)
#endif

#define YEQ_AT(type, field, offset) YEQ_ASSERT(offsetof(struct type, field) == (offset))

YEQ_ASSERT(sizeof(void *) == 8 && sizeof(size_t) == 8);

/* How a call ended. */
enum yeq_status {
    YEQ_DONE = 0,
    YEQ_NO_MEMORY = 1, /* There was no memory, and nothing was done. */
    YEQ_CLOSED = 2,    /* A handle that is to be open is closed. */
    YEQ_OPEN = 3,      /* A handle that is to be closed is open. */
    YEQ_KIND = 4,      /* A handle is open, but isn't at the step that the call is for. */
    YEQ_RANGE = 5,     /* A number is out of range: of a processor, a kind, parts, entries, an index. */
    YEQ_ROOM = 6,      /* The room is too small: how much is needed is written, and nothing else. */
    YEQ_BLOCK = 7,     /* The bytes spell no block: struct yeq_fault says why, and where. */
    YEQ_TWICE = 8,     /* Two objects are given one path: struct yeq_fault and the path say which. */
    YEQ_OBJECT = 9,    /* An object means nothing: struct yeq_fault and its path say why, and where. */
    YEQ_LIMIT = 10,    /* A limit of plans is passed: struct yeq_fault says which. */
    YEQ_BUSY = 11,     /* Another seat has what the request needs: ask again. */
    YEQ_FULL = 12,     /* The history has as many entries as it may have. */
    YEQ_SEATS = 13,    /* Other seats of the coordinator are out, or other calls still use it. */
    YEQ_NUMBERS = 14,  /* 65,536 seats were made, and there is no number for one more. */
    YEQ_STOPPED = 15,  /* The history ended at a register that failed: yeq_endless_finish was told of it. */
    YEQ_BEGUN = 16,    /* The seat has begun a request: finish it first. */
    YEQ_NOT_BEGUN = 17 /* The seat has begun no request. */
};

/* The words of a status. */
static inline const char *yeq_status_name(int status)
{
    switch (status) {
    case YEQ_DONE: return "done";
    case YEQ_NO_MEMORY: return "no memory";
    case YEQ_CLOSED: return "the handle is closed";
    case YEQ_OPEN: return "the handle is open";
    case YEQ_KIND: return "the handle is open for something else";
    case YEQ_RANGE: return "a number is out of range";
    case YEQ_ROOM: return "the room is too small";
    case YEQ_BLOCK: return "no definition block";
    case YEQ_TWICE: return "two objects with one path";
    case YEQ_OBJECT: return "an object means nothing";
    case YEQ_LIMIT: return "a limit of plans is passed";
    case YEQ_BUSY: return "another seat has what is needed";
    case YEQ_FULL: return "the history is full";
    case YEQ_SEATS: return "other seats are out";
    case YEQ_NUMBERS: return "no number for one more seat";
    case YEQ_STOPPED: return "the history has ended";
    case YEQ_BEGUN: return "a request has begun";
    case YEQ_NOT_BEGUN: return "no request has begun";
    default: return "no status";
    }
}

/* The handles. Their fields are the library's. */
struct yeq_machine {
    uint64_t mark;
    void *at;
};

struct yeq_seat {
    uint64_t mark;
    void *at;
};

struct yeq_endless {
    uint64_t mark;
    void *at;
};

struct yeq_cppc {
    uint64_t mark;
    void *at;
};

/* A closed handle: struct yeq_machine m = YEQ_HANDLE; */
#define YEQ_HANDLE { 0, NULL }

/* Why blocks were refused. Bytes and lengths as in ACPI 6.5, 5.2.6 and 20.2; objects as in 8.4; the limits are this
 * library's. */
enum yeq_why {
    YEQ_HEADER_LARGE = 1,     /* more than 4,194,304 bytes */
    YEQ_HEADER_SHORT = 2,     /* fewer than 36 bytes */
    YEQ_HEADER_SIGNATURE = 3, /* neither DSDT nor SSDT */
    YEQ_HEADER_LENGTH = 4,    /* its length isn't the number of bytes */
    YEQ_HEADER_SUM = 5,       /* the bytes don't sum to 0 modulo 256 */
    YEQ_DATA_SHORT = 11,      /* a byte is needed here, and there is none */
    YEQ_DATA_LEAD = 12,       /* this byte begins nothing that may stand here */
    YEQ_DATA_LENGTH = 13,     /* no PkgLength */
    YEQ_DATA_NAME = 14,       /* no name */
    YEQ_DATA_TEXT = 15,       /* a byte of a string is 0x80 or greater */
    YEQ_DATA_TOO_MANY = 16,   /* a package has more elements than its count */
    YEQ_DATA_TOO_DEEP = 17,   /* nested more than 32 deep */
    YEQ_TERM = 21,            /* this opcode begins no term */
    YEQ_OBJECT_KIND = 31,     /* it is of another kind */
    YEQ_OBJECT_COUNT = 32,    /* a package has another number of elements */
    YEQ_OBJECT_REVISION = 33, /* the revision isn't known */
    YEQ_OBJECT_RANGE = 34,    /* a number is out of its range */
    YEQ_OBJECT_REGISTER = 35, /* a buffer holds no register */
    YEQ_LIMIT_CONTAINERS = 41, /* 256 processor containers */
    YEQ_LIMIT_CPUS = 42,      /* 256 processors */
    YEQ_LIMIT_DEPTH = 43,     /* 8 containers around one another */
    YEQ_LIMIT_CHILDREN = 44,  /* 255 children of one container */
    YEQ_LIMIT_STATES = 45     /* 255 states of one table */
};

/* Why a call answered YEQ_BLOCK, YEQ_TWICE, YEQ_OBJECT or YEQ_LIMIT, and where. It is written then, and only then;
 * what isn't said of the status is 0. The path is written whole where there is room for it, and else not at all. */
struct yeq_fault {
    uint32_t why;         /* enum yeq_why; 0 at YEQ_TWICE */
    uint32_t outer;       /* YEQ_OBJECT: the element of the package, from 1; 0 is the whole object */
    uint32_t inner;       /* YEQ_OBJECT: the element within that one, from 1; 0 is all of it */
    uint32_t found;       /* the byte at YEQ_DATA_LEAD, the opcode at YEQ_TERM, the count at YEQ_LIMIT */
    uint64_t at;          /* YEQ_BLOCK: the byte of the block, from 0 */
    uint64_t path_length; /* YEQ_TWICE, YEQ_OBJECT: how many bytes the object's path has */
};

/* How many there are of each part of a plan. */
struct yeq_counts {
    uint32_t containers; /* processor containers, ACPI0010 (ACPI 6.5, 8.4.2) */
    uint32_t cpus;       /* processors; their numbers are 0 to cpus - 1, in the order of the blocks */
    uint32_t domains;    /* dependency domains (8.4.4.4, 8.4.5.5, 8.4.1.2) */
    uint32_t groups;     /* processors that idle domains join */
    uint32_t notes;      /* objects that count as absent, and domains that can't be coordinated */
    uint32_t opening;    /* how many operations there are at the start, at most */
};

enum yeq_idle_kind {
    YEQ_IDLE_NONE = 0,
    YEQ_IDLE_LPI = 1, /* _LPI (ACPI 6.5, 8.4.3) */
    YEQ_IDLE_CST = 2  /* _CST (ACPI 6.5, 8.4.1) */
};

/* What a processor has. */
struct yeq_cpu {
    uint32_t idle_kind;       /* enum yeq_idle_kind */
    uint32_t idle_states;     /* numbered from 1 */
    uint32_t perf_states;     /* of _PSS (8.4.5.2), numbered from 0, the fastest */
    uint32_t throttle_states; /* of _TSS (8.4.4.2), numbered from 0, the fastest */
};

enum yeq_request_kind {
    YEQ_REQUEST_IDLE = 1,          /* the processor goes idle */
    YEQ_REQUEST_WAKE = 2,          /* it runs again */
    YEQ_REQUEST_PERF = 3,          /* it asks for a performance state */
    YEQ_REQUEST_THROTTLE = 4,      /* it asks for a throttling state */
    YEQ_REQUEST_PERF_LIMIT = 5,    /* _PPC: the first performance state that may be used (8.4.5.3) */
    YEQ_REQUEST_THROTTLE_LIMIT = 6 /* _TPC: the first throttling state that may be used (8.4.4.3) */
};

/* Bears any wake latency. */
#define YEQ_ANY_LATENCY UINT32_MAX

/* What a processor, or the platform in its name, asks for. */
struct yeq_request {
    uint32_t kind; /* enum yeq_request_kind */
    uint32_t cpu;
    union {
        uint32_t state; /* YEQ_REQUEST_IDLE: the idle state, from 1 */
        uint32_t index; /* YEQ_REQUEST_PERF, YEQ_REQUEST_THROTTLE: the state, from 0 */
        uint32_t limit; /* YEQ_REQUEST_PERF_LIMIT, YEQ_REQUEST_THROTTLE_LIMIT: the state, from 0 */
    };
    uint32_t tolerance; /* YEQ_REQUEST_IDLE: the wake latency that it bears, in microseconds */
};

enum yeq_reply_kind {
    YEQ_REPLY_ENTERED = 1,     /* the processor idles: states, of which the first is 0 where it comes to none */
    YEQ_REPLY_RUNNING = 2,     /* it runs */
    YEQ_REPLY_STANDS = 3,      /* where its domain, or by itself the processor, stands: index */
    YEQ_REPLY_NO_STATE = 4,    /* there is no such state: count */
    YEQ_REPLY_DISABLED = 5,    /* the state isn't enabled */
    YEQ_REPLY_ABOVE_LIMIT = 6, /* the state is faster than the processor's limit allows: limit */
    YEQ_REPLY_NO_TABLE = 7,    /* the processor has no such table */
    YEQ_REPLY_UNFIT = 8,       /* its domain can't be coordinated: domain, and why */
    YEQ_REPLY_TOO_SLOW = 9     /* the state wakes slower than the request bears: latency */
};

/* Why a domain can't be coordinated. */
enum yeq_unfit {
    YEQ_UNFIT_COORD = 1,    /* its members declare different coordination types */
    YEQ_UNFIT_COUNTS = 2,   /* they declare different numbers of processors */
    YEQ_UNFIT_NUMBER = 3,   /* it has another number of members than they declare */
    YEQ_UNFIT_STATES = 4,   /* their tables have different lengths */
    YEQ_UNFIT_REGISTER = 5  /* a member has no control register */
};

/* What a request is answered. From YEQ_REPLY_NO_STATE on it is refused, and changed nothing. */
struct yeq_reply {
    uint32_t kind; /* enum yeq_reply_kind */
    union {
        uint32_t index;   /* YEQ_REPLY_STANDS: the state, from 0 */
        uint32_t count;   /* YEQ_REPLY_NO_STATE: how many states there are */
        uint32_t limit;   /* YEQ_REPLY_ABOVE_LIMIT: the first state that may be used, from 0 */
        uint32_t domain;  /* YEQ_REPLY_UNFIT: the domain's number, from 0 */
        uint32_t latency; /* YEQ_REPLY_TOO_SLOW: the state's wake latency, in microseconds */
    };
    uint8_t why;       /* YEQ_REPLY_UNFIT: enum yeq_unfit */
    uint8_t length;    /* YEQ_REPLY_ENTERED: how many states follow */
    uint8_t states[9]; /* YEQ_REPLY_ENTERED: its own, and those of its containers upwards; 0 from length on */
};

enum yeq_op_kind {
    YEQ_OP_SET = 1,  /* value is written to the register (ACPI 6.5, 8.4.4.1, 8.4.5.1, 8.4.6.1.2) */
    YEQ_OP_ENTER = 2 /* the processor enters an idle state by the register (8.4.3.3, 8.4.1.1) */
};

/* Address spaces of registers (ACPI 6.5, 5.2.3.2). There are others. */
enum yeq_space {
    YEQ_SPACE_MEMORY = 0,
    YEQ_SPACE_IO = 1,
    YEQ_SPACE_PCC = 0x0A,
    YEQ_SPACE_FIXED = 0x7F /* functional fixed hardware: the processor's own */
};

/* An operation on a register of a processor. A coordinator's list has 256 at most behind a request. */
struct yeq_op {
    uint64_t address;  /* the register, as its descriptor gives it (ACPI 6.5, 6.4.3.7) */
    uint64_t value;    /* YEQ_OP_SET: what is written */
    uint32_t kind;     /* enum yeq_op_kind */
    uint32_t cpu;      /* the processor */
    uint8_t space;     /* enum yeq_space */
    uint8_t width;     /* in bits */
    uint8_t offset;    /* its first bit, from 0 */
    uint8_t access;    /* 0 undefined, 1 a byte, 2 a word, 3 a double word, 4 a quad word */
    uint8_t length;    /* YEQ_OP_ENTER: how many states follow */
    uint8_t states[9]; /* YEQ_OP_ENTER: the processor's, and those of its containers upwards */
};

/* What a seat knows. */
struct yeq_seat_facts {
    uint32_t number; /* its number; no two seats of a coordinator have the same */
    uint32_t parts;  /* of the coordinator's 65,536 */
    uint64_t seen;   /* how many entries of the history it has seen */
};

/* A request that was made, as the history keeps it. */
struct yeq_entry {
    uint32_t seat;  /* the number of the seat that made it */
    uint32_t fault; /* 0; or one more than the operations that were done before a register failed */
    struct yeq_request request;
};

enum yeq_cppc_request_kind {
    YEQ_CPPC_DESIRED = 1, /* the performance that the processor wishes */
    YEQ_CPPC_MINIMUM = 2, /* it is to be no slower */
    YEQ_CPPC_MAXIMUM = 3  /* it is to be no faster */
};

/* What a processor asks of its performance, on the scale of its _CPC: greater is faster (ACPI 6.5, 8.4.6.1.2). */
struct yeq_cppc_request {
    uint32_t kind; /* enum yeq_cppc_request_kind */
    uint32_t cpu;
    uint32_t value;
};

enum yeq_cppc_reply_kind {
    YEQ_CPPC_STANDS = 1,       /* where its domain, or by itself the processor, stands: value */
    YEQ_CPPC_NO_TABLE = 2,     /* the processor has no _CPC */
    YEQ_CPPC_UNFIT = 3,        /* its domain can't be coordinated: why */
    YEQ_CPPC_OUT_OF_RANGE = 4, /* the value isn't from lowest to highest */
    YEQ_CPPC_CROSSED = 5       /* a minimum above the maximum, or a maximum below the minimum: bound */
};

/* Why a domain of desired performance can't be coordinated. */
enum yeq_cppc_unfit {
    YEQ_CPPC_UNFIT_COORD = 1,   /* its members declare different coordination types */
    YEQ_CPPC_UNFIT_COUNTS = 2,  /* they declare different numbers of processors */
    YEQ_CPPC_UNFIT_NUMBER = 3,  /* it has another number of members than they declare */
    YEQ_CPPC_UNFIT_RANGE = 4,   /* a member's lowest performance is no integer, or above its highest */
    YEQ_CPPC_UNFIT_RANGES = 5,  /* they have different ranges */
    YEQ_CPPC_UNFIT_REGISTER = 6 /* a member has no register for desired performance */
};

/* From YEQ_CPPC_NO_TABLE on the request is refused, and changed nothing. */
struct yeq_cppc_reply {
    uint32_t kind; /* enum yeq_cppc_reply_kind */
    uint32_t why;  /* YEQ_CPPC_UNFIT: enum yeq_cppc_unfit */
    union {
        uint64_t value;  /* YEQ_CPPC_STANDS */
        uint64_t lowest; /* YEQ_CPPC_OUT_OF_RANGE: the lowest performance */
        uint64_t bound;  /* YEQ_CPPC_CROSSED: the maximum or minimum that is in the way */
    };
    uint64_t highest; /* YEQ_CPPC_OUT_OF_RANGE: the highest performance */
};

/* ---- A machine: open, add_block for each block, plan, and then start for the coordinator of one caller. ---- */

/* Opens a closed handle for blocks. */
int32_t yeq_machine_open(struct yeq_machine *machine);

/* Adds a definition block, the DSDT first: its bytes are copied. YEQ_KIND once there is a plan. */
int32_t yeq_machine_add_block(struct yeq_machine *machine, const uint8_t *bytes, size_t length,
                              struct yeq_fault *fault);

/* Makes the plan of the blocks. YEQ_TWICE, YEQ_OBJECT and YEQ_LIMIT tell of the first fault, and the blocks stay. */
int32_t yeq_machine_plan(struct yeq_machine *machine, struct yeq_fault *fault, uint8_t *path, size_t room);

/* Counts the parts of the plan. It takes no memory. YEQ_KIND where there is no plan, here and below. */
int32_t yeq_machine_counts(struct yeq_machine *machine, struct yeq_counts *counts);

/* Tells what a processor of the plan has, its path as \_SB_.CPU0, with no 0 behind, and how long that is. It takes
 * no memory. */
int32_t yeq_machine_cpu(struct yeq_machine *machine, uint32_t cpu, struct yeq_cpu *told, uint8_t *path, size_t room,
                        size_t *length);

/* Starts the coordinator of one caller: everyone runs, at the limits of the tables. Its list has the operations at
 * the start. The blocks are let go: what is opened from a machine is opened before. */
int32_t yeq_machine_start(struct yeq_machine *machine);

/* Makes a request. It takes no memory. Its list has the request's operations then. YEQ_KIND where it isn't started. */
int32_t yeq_machine_ask(struct yeq_machine *machine, const struct yeq_request *request, struct yeq_reply *reply);

/* Writes the operations of the last request that was made, or those at the start, and their count. It takes no
 * memory. */
int32_t yeq_machine_ops(struct yeq_machine *machine, struct yeq_op *ops, size_t room, uint32_t *count);

/* Closes an open handle and gives back all that it has. */
int32_t yeq_machine_close(struct yeq_machine *machine);

/* ---- Seats: the first one has all 65,536 parts of its coordinator, and a split gives some away. ---- */

/* Opens a closed handle for the first seat of a new coordinator, whose history has room for so many entries, 65,536
 * at most. It makes the plan of the blocks again of a machine with a plan that isn't started, and leaves that as it is.
 * That it then doesn't answer YEQ_TWICE, YEQ_OBJECT or YEQ_LIMIT, here and at yeq_cppc_open, no contract says. */
int32_t yeq_seat_open(struct yeq_seat *seat, struct yeq_machine *machine, uint32_t entries);

/* Opens another, closed handle for a new seat with so many parts of this one's: one at least, and fewer than it has. */
int32_t yeq_seat_split(struct yeq_seat *seat, struct yeq_seat *other, uint32_t parts);

/* Makes a request, or answers YEQ_BUSY where another seat has a record that it needs. It takes no memory and never
 * waits. */
int32_t yeq_seat_ask(struct yeq_seat *seat, const struct yeq_request *request, struct yeq_reply *reply);

/* Writes the operations of the seat's last request, their count, and the request's number in the history, from 1. It
 * takes no memory. On the first seat it tells the operations at the start, number 0, until it makes a request. There
 * are none, number 0, on another seat before its first request, and where the last one came to YEQ_BUSY, YEQ_FULL or
 * YEQ_STOPPED. At YEQ_ROOM the number is written too. */
int32_t yeq_seat_ops(struct yeq_seat *seat, struct yeq_op *ops, size_t room, uint32_t *count, uint64_t *number);

/* Tells what the seat knows. It takes no memory. */
int32_t yeq_seat_tell(struct yeq_seat *seat, struct yeq_seat_facts *facts);

/* Joins another seat of the same coordinator into this one, and closes the other handle. */
int32_t yeq_seat_join(struct yeq_seat *seat, struct yeq_seat *other);

/* Ends the coordinator of a seat that has all parts: the handle has the history then. */
int32_t yeq_seat_seal(struct yeq_seat *seat);

/* How many entries the history has. YEQ_KIND before yeq_seat_seal. It takes no memory. */
int32_t yeq_seat_entries(struct yeq_seat *seat, uint32_t *count);

/* The entry of this index, from 0. It takes no memory. */
int32_t yeq_seat_entry(struct yeq_seat *seat, uint32_t index, struct yeq_entry *entry);

/* Closes an open handle and gives back all that it alone has. A seat that is closed and not joined takes its parts
 * along: its coordinator can't be sealed then. */
int32_t yeq_seat_close(struct yeq_seat *seat);

/* ---- Seats of a coordinator without end, for requests in two steps. ---- */

/* Opens a closed handle for the first seat of a new coordinator, whose history may have 2^64 - 1 entries and takes no
 * memory. It makes the plan again as yeq_seat_open does. Its list has the operations at the start: they are done before
 * the first request. By its contract it may also answer YEQ_STOPPED, which it never does. */
int32_t yeq_endless_open(struct yeq_endless *endless, struct yeq_machine *machine);

/* Opens another, closed handle for a new seat with so many parts of this one's: one at least, and fewer than it has.
 * YEQ_BEGUN where this one has begun a request. */
int32_t yeq_endless_split(struct yeq_endless *endless, struct yeq_endless *other, uint32_t parts);

/* Begins a request, and tells what it is answered if all its operations are done. YEQ_BUSY where another seat has a
 * record that it needs, or has begun a request; YEQ_STOPPED once a register failed; YEQ_BEGUN where this seat has begun
 * one. It takes no memory and never waits. From YEQ_DONE to yeq_endless_finish no other seat begins one. */
int32_t yeq_endless_begin(struct yeq_endless *endless, const struct yeq_request *request, struct yeq_reply *reply);

/* Writes the operations of the request that has begun, and their count: 256 at most. It takes no memory. Where none has
 * begun they are those at the start, on the first seat before its first request begins, or none. */
int32_t yeq_endless_ops(struct yeq_endless *endless, struct yeq_op *ops, size_t room, uint32_t *count);

/* Finishes the request that has begun, of whose operations so many were done, in order. All of them: it is made.
 * Fewer: a register failed at the next one, the request isn't answered, and the history ends with it. More: YEQ_RANGE,
 * and it isn't finished. YEQ_NOT_BEGUN where none has begun. It takes no memory and never waits. */
int32_t yeq_endless_finish(struct yeq_endless *endless, uint32_t done);

/* Tells what the seat knows. YEQ_BEGUN where it has begun a request. It takes no memory. */
int32_t yeq_endless_tell(struct yeq_endless *endless, struct yeq_seat_facts *facts);

/* Joins another seat of the same coordinator into this one, and closes the other handle. YEQ_BEGUN where one of them
 * has begun a request. */
int32_t yeq_endless_join(struct yeq_endless *endless, struct yeq_endless *other);

/* Closes an open handle and gives back all that it alone has. YEQ_BEGUN where it has begun a request. */
int32_t yeq_endless_close(struct yeq_endless *endless);

/* ---- Desired performance (ACPI 6.5, 8.4.6.1), for one caller. ---- */

/* Opens a closed handle for the coordinator by _CPC of a machine with a plan that isn't started, and leaves that as
 * it is. Its list has the operations at the start. */
int32_t yeq_cppc_open(struct yeq_cppc *cppc, struct yeq_machine *machine);

/* Makes a request. It takes no memory. Its list has the request's operations then. */
int32_t yeq_cppc_ask(struct yeq_cppc *cppc, const struct yeq_cppc_request *request, struct yeq_cppc_reply *reply);

/* Writes the operations of the last request that was made, or those at the start, and their count. It takes no
 * memory. */
int32_t yeq_cppc_ops(struct yeq_cppc *cppc, struct yeq_op *ops, size_t room, uint32_t *count);

/* Closes an open handle and gives back all that it has. */
int32_t yeq_cppc_close(struct yeq_cppc *cppc);

/* ---- What the program gives the library. ---- */

/* What a call for memory comes to: done says whether, and at is never null, also where it isn't. */
struct yeq_memory {
    bool done;
    void *at;
};

/* A block of so many bytes, 0 too, at a multiple of align, a power of two up to 16. */
struct yeq_memory rattle_alloc(size_t size, size_t align);

/* The same block with another size, maybe elsewhere, which keeps its first bytes, so many. Where it isn't done the
 * block is as it was. */
struct yeq_memory rattle_realloc(void *at, size_t kept, size_t size, size_t align);

/* Takes a block back. */
void rattle_dealloc(void *at);

#ifdef __cplusplus
}
#endif

/* The layouts that the library was built with. */
YEQ_ASSERT(sizeof(struct yeq_machine) == 16 && sizeof(struct yeq_seat) == 16 && sizeof(struct yeq_cppc) == 16);
YEQ_ASSERT(sizeof(struct yeq_endless) == 16);
YEQ_AT(yeq_machine, mark, 0);
YEQ_AT(yeq_machine, at, 8);
YEQ_AT(yeq_seat, mark, 0);
YEQ_AT(yeq_seat, at, 8);
YEQ_AT(yeq_endless, mark, 0);
YEQ_AT(yeq_endless, at, 8);
YEQ_AT(yeq_cppc, mark, 0);
YEQ_AT(yeq_cppc, at, 8);

YEQ_ASSERT(sizeof(struct yeq_fault) == 32);
YEQ_AT(yeq_fault, why, 0);
YEQ_AT(yeq_fault, outer, 4);
YEQ_AT(yeq_fault, inner, 8);
YEQ_AT(yeq_fault, found, 12);
YEQ_AT(yeq_fault, at, 16);
YEQ_AT(yeq_fault, path_length, 24);

YEQ_ASSERT(sizeof(struct yeq_counts) == 24);
YEQ_AT(yeq_counts, containers, 0);
YEQ_AT(yeq_counts, cpus, 4);
YEQ_AT(yeq_counts, domains, 8);
YEQ_AT(yeq_counts, groups, 12);
YEQ_AT(yeq_counts, notes, 16);
YEQ_AT(yeq_counts, opening, 20);

YEQ_ASSERT(sizeof(struct yeq_cpu) == 16);
YEQ_AT(yeq_cpu, idle_kind, 0);
YEQ_AT(yeq_cpu, idle_states, 4);
YEQ_AT(yeq_cpu, perf_states, 8);
YEQ_AT(yeq_cpu, throttle_states, 12);

YEQ_ASSERT(sizeof(struct yeq_request) == 16);
YEQ_AT(yeq_request, kind, 0);
YEQ_AT(yeq_request, cpu, 4);
YEQ_AT(yeq_request, state, 8);
YEQ_AT(yeq_request, tolerance, 12);

YEQ_ASSERT(sizeof(struct yeq_reply) == 20);
YEQ_AT(yeq_reply, kind, 0);
YEQ_AT(yeq_reply, index, 4);
YEQ_AT(yeq_reply, why, 8);
YEQ_AT(yeq_reply, length, 9);
YEQ_AT(yeq_reply, states, 10);

YEQ_ASSERT(sizeof(struct yeq_op) == 40);
YEQ_AT(yeq_op, address, 0);
YEQ_AT(yeq_op, value, 8);
YEQ_AT(yeq_op, kind, 16);
YEQ_AT(yeq_op, cpu, 20);
YEQ_AT(yeq_op, space, 24);
YEQ_AT(yeq_op, width, 25);
YEQ_AT(yeq_op, offset, 26);
YEQ_AT(yeq_op, access, 27);
YEQ_AT(yeq_op, length, 28);
YEQ_AT(yeq_op, states, 29);

YEQ_ASSERT(sizeof(struct yeq_seat_facts) == 16);
YEQ_AT(yeq_seat_facts, number, 0);
YEQ_AT(yeq_seat_facts, parts, 4);
YEQ_AT(yeq_seat_facts, seen, 8);

YEQ_ASSERT(sizeof(struct yeq_entry) == 24);
YEQ_AT(yeq_entry, seat, 0);
YEQ_AT(yeq_entry, fault, 4);
YEQ_AT(yeq_entry, request, 8);

YEQ_ASSERT(sizeof(struct yeq_cppc_request) == 12);
YEQ_AT(yeq_cppc_request, kind, 0);
YEQ_AT(yeq_cppc_request, cpu, 4);
YEQ_AT(yeq_cppc_request, value, 8);

YEQ_ASSERT(sizeof(struct yeq_cppc_reply) == 24);
YEQ_AT(yeq_cppc_reply, kind, 0);
YEQ_AT(yeq_cppc_reply, why, 4);
YEQ_AT(yeq_cppc_reply, value, 8);
YEQ_AT(yeq_cppc_reply, highest, 16);

#undef YEQ_AT
#undef YEQ_ASSERT

#endif
