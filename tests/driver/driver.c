/* Lends the library what it is told to, through the C face, and tells what came of it.

   Requests come on standard input, responses go to standard output, in the order of the requests. All numbers are little-endian.

   request:  u32 op, u32 scalar count, i64 scalars, u32 slice count, then each slice as u32 byte length and its bytes
   response: u32 scalar count, i64 scalars, u32 slice count, then each slice as u32 byte length and its bytes

   A response's scalars are the fields of the entry's result in order; a double is its bits. Its slices are ALL the request's slices as the entry left them,
   the lent inputs too. An entry is handed each slice at an address that is a multiple of 8, with guarded bytes before and behind it.

   op  entry        scalars        slices
    1  pick         rank           numbers, scratch
    2  round        a              east, north, list, output, scratch
    3  bridge       a              east, north, scratch
    4  chains                      east, north, upper, lower, scratch
    5  ring                        east, north, out_east, out_north, scratch
    6  hand_for     corners
    7  hand_step    count, place
    8  strongest    x, y           east, north
    9  cover        x, y           east, north
   10  turn_about                  east, north, out_east, out_north
   11  join                        east, north, east2, north2, out_east, out_north, scratch
   12  part         x (bits)
   13  readings                    east, north (doubles), out_east, out_north
   14  record                      bytes, out_east, out_north
   15  write_record version, sense east, north, out
   16  sum                         east, north, east2, north2, out_east, out_north, scratch
   17  no entry     bytes                                                       writes so many bytes of stack, from above

   An op with 100 added is the same on a stack of its own, of 65,536 bytes and not one more: what lies below may not be touched, and a call that goes deeper
   ends this program by signal 11. Its response has one scalar more, how many bytes of that stack were used, counted down to the lowest one written.

   An op with 200 added, or with both, is the same with NULL as the pointer of each slice of no bytes. All earlier responses are out before it, so that it is the
   first without one if it ends this program.

   Ends with status 0 when the input ends after a response, 3 at an op that is unknown, 4 at a request that is cut or not of its op's form, 5 if a
   guarded byte was altered. */

#include "../../include/nuoskelma.h"

extern long read(int from, void *into, size_t most);
extern long write(int to, const void *from, size_t most);
extern void *memcpy(void *to, const void *from, size_t count);
extern void *memset(void *to, int byte, size_t count);
extern void *mmap(void *at, size_t count, int protection, int flags, int file, long offset);
extern int mprotect(void *at, size_t count, int protection);
extern void exit(int status) __attribute__((noreturn));

enum { UNKNOWN_OP = 3, BAD_REQUEST = 4, GUARD_ALTERED = 5 };
enum { MOST_SCALARS = 8, MOST_SLICES = 8, GUARD = 64, GUARD_BYTE = 0xa5, BUFFER = 1 << 16, ROOM = 1 << 25 };

/* ---- the layout of every struct of the C face, as it is on x86-64 */

#define SIZE(type, bytes) _Static_assert(sizeof(type) == (bytes), #type " has " #bytes " bytes")
#define AT(type, field, byte) _Static_assert(__builtin_offsetof(type, field) == (byte), #type " has " #field " at " #byte)

SIZE(nuoskelma_picked, 24);
AT(nuoskelma_picked, number, 0);
AT(nuoskelma_picked, place, 8);
AT(nuoskelma_picked, value, 16);
SIZE(nuoskelma_round_said, 40);
AT(nuoskelma_round_said, number, 0);
AT(nuoskelma_round_said, place, 8);
AT(nuoskelma_round_said, kind, 16);
AT(nuoskelma_round_said, left, 20);
AT(nuoskelma_round_said, right, 24);
AT(nuoskelma_round_said, kept, 32);
SIZE(nuoskelma_bridged, 24);
AT(nuoskelma_bridged, number, 0);
AT(nuoskelma_bridged, place, 8);
AT(nuoskelma_bridged, left, 16);
AT(nuoskelma_bridged, right, 20);
SIZE(nuoskelma_chained, 32);
AT(nuoskelma_chained, number, 0);
AT(nuoskelma_chained, place, 8);
AT(nuoskelma_chained, upper, 16);
AT(nuoskelma_chained, lower, 24);
SIZE(nuoskelma_counted, 24);
AT(nuoskelma_counted, number, 0);
AT(nuoskelma_counted, place, 8);
AT(nuoskelma_counted, count, 16);
SIZE(nuoskelma_hand, 16);
AT(nuoskelma_hand, count, 0);
AT(nuoskelma_hand, place, 8);
SIZE(nuoskelma_hand_made, 32);
AT(nuoskelma_hand_made, number, 0);
AT(nuoskelma_hand_made, place, 8);
AT(nuoskelma_hand_made, hand, 16);
SIZE(nuoskelma_hand_stepped, 48);
AT(nuoskelma_hand_stepped, number, 0);
AT(nuoskelma_hand_stepped, place, 8);
AT(nuoskelma_hand_stepped, from, 16);
AT(nuoskelma_hand_stepped, to, 24);
AT(nuoskelma_hand_stepped, hand, 32);
SIZE(nuoskelma_strongest_set, 32);
AT(nuoskelma_strongest_set, number, 0);
AT(nuoskelma_strongest_set, place, 8);
AT(nuoskelma_strongest_set, set, 16);
AT(nuoskelma_strongest_set, at, 24);
SIZE(nuoskelma_cover_told, 24);
AT(nuoskelma_cover_told, number, 0);
AT(nuoskelma_cover_told, place, 8);
AT(nuoskelma_cover_told, covered, 16);
SIZE(nuoskelma_part_taken, 16);
AT(nuoskelma_part_taken, number, 0);
AT(nuoskelma_part_taken, value, 4);
AT(nuoskelma_part_taken, back, 8);
SIZE(nuoskelma_readings_taken, 32);
AT(nuoskelma_readings_taken, number, 0);
AT(nuoskelma_readings_taken, place, 8);
AT(nuoskelma_readings_taken, count, 16);
AT(nuoskelma_readings_taken, back, 24);

/* ---- standard input and output */

static uint8_t in[BUFFER], out[BUFFER];
static size_t in_at, in_end, out_end;

static void write_all(const uint8_t *from, size_t count) {
    while (count > 0) {
        long wrote = write(1, from, count);
        if (wrote <= 0) exit(BAD_REQUEST);
        from += wrote;
        count -= (size_t)wrote;
    }
}

static void flush(void) {
    write_all(out, out_end);
    out_end = 0;
}

static void put(const void *from, size_t count) {
    if (out_end + count > BUFFER) flush();
    if (count > BUFFER) {
        write_all(from, count);
    } else {
        memcpy(out + out_end, from, count);
        out_end += count;
    }
}

static void put_u32(uint32_t x) { put(&x, 4); }

/* Nobody waits for a response while this program waits for a request: what is written goes out before more is read. */
static size_t read_some(uint8_t *into, size_t most) {
    flush();
    long got = read(0, into, most);
    if (got < 0) exit(BAD_REQUEST);
    return (size_t)got;
}

/* 1, or 0 where the input ends and nothing more was due */
static int more(void) {
    if (in_at == in_end) {
        in_at = 0;
        in_end = read_some(in, BUFFER);
    }
    return in_at < in_end;
}

static void get(void *into, size_t count) {
    uint8_t *to = into;
    while (count > 0) {
        if (!more()) exit(BAD_REQUEST);
        size_t part = in_end - in_at < count ? in_end - in_at : count;
        memcpy(to, in + in_at, part);
        in_at += part;
        to += part;
        count -= part;
    }
}

static uint32_t get_u32(void) {
    uint32_t x;
    get(&x, 4);
    return x;
}

/* ---- what is lent, and what is said */

/* where its bytes are, and the pointer that is lent: the same, or NULL */
struct slice {
    uint8_t *at;
    uint8_t *lent;
    size_t bytes;
};

static uint8_t room[ROOM] __attribute__((aligned(64)));
static size_t room_end;
static struct slice slices[MOST_SLICES];
static size_t slice_count;
static int64_t scalars[MOST_SCALARS];
static size_t scalar_count;
static int64_t said[MOST_SCALARS];
static size_t said_count;

static void say(int64_t x) { said[said_count++] = x; }

static void guard(void) {
    for (size_t i = 0; i < GUARD; i++) room[room_end + i] = GUARD_BYTE;
    room_end += GUARD;
}

static void get_slice(struct slice *s, int empty_is_null) {
    size_t bytes = get_u32();
    if (bytes > ROOM || room_end + bytes + 2 * GUARD > ROOM) exit(BAD_REQUEST);
    s->at = room + room_end;
    s->lent = bytes == 0 && empty_is_null ? NULL : s->at;
    s->bytes = bytes;
    get(s->at, bytes);
    room_end += bytes;
    while (room_end % 8 != 0) room[room_end++] = GUARD_BYTE;
    guard();
}

static void get_request(int empty_is_null) {
    scalar_count = get_u32();
    if (scalar_count > MOST_SCALARS) exit(BAD_REQUEST);
    get(scalars, 8 * scalar_count);
    slice_count = get_u32();
    if (slice_count > MOST_SLICES) exit(BAD_REQUEST);
    room_end = 0;
    guard();
    for (size_t k = 0; k < slice_count; k++) get_slice(&slices[k], empty_is_null);
    said_count = 0;
}

static void check_guards(void) {
    size_t at = 0;
    for (size_t k = 0; k <= slice_count; k++) {
        size_t end = k < slice_count ? (size_t)(slices[k].at - room) : room_end;
        for (; at < end; at++)
            if (room[at] != GUARD_BYTE) exit(GUARD_ALTERED);
        if (k < slice_count) at += slices[k].bytes;
    }
}

static void put_response(void) {
    put_u32((uint32_t)said_count);
    put(said, 8 * said_count);
    put_u32((uint32_t)slice_count);
    for (size_t k = 0; k < slice_count; k++) {
        put_u32((uint32_t)slices[k].bytes);
        put(slices[k].at, slices[k].bytes);
    }
}

/* A request's form: so many scalars, and a slice for each letter: i for int32_t, u for uint32_t, d for double, b for bytes. */
static void form(size_t wanted_scalars, const char *wanted_slices) {
    if (scalar_count != wanted_scalars) exit(BAD_REQUEST);
    size_t k = 0;
    for (; wanted_slices[k] != 0; k++) {
        size_t width = wanted_slices[k] == 'd' ? 8 : wanted_slices[k] == 'b' ? 1 : 4;
        if (k >= slice_count || slices[k].bytes % width != 0) exit(BAD_REQUEST);
    }
    if (k != slice_count) exit(BAD_REQUEST);
}

/* slice k as the two arguments that lend it */
#define I32(k) (int32_t *)(void *)slices[k].lent, slices[k].bytes / 4
#define U32(k) (uint32_t *)(void *)slices[k].lent, slices[k].bytes / 4
#define F64(k) (double *)(void *)slices[k].lent, slices[k].bytes / 8
#define BYTES(k) slices[k].lent, slices[k].bytes

static int64_t bits_of(double x) {
    int64_t bits;
    memcpy(&bits, &x, 8);
    return bits;
}

static void say_counted(nuoskelma_counted r) {
    say(r.number);
    say((int64_t)r.place);
    say((int64_t)r.count);
}

static void say_hand(nuoskelma_hand hand) {
    say((int64_t)hand.count);
    say((int64_t)hand.place);
}

/* ---- the entries */

static void pick(void) {
    form(1, "iu");
    nuoskelma_picked r = nuoskelma_pick(I32(0), (size_t)scalars[0], U32(1));
    say(r.number);
    say((int64_t)r.place);
    say(r.value);
}

static void round_(void) {
    form(1, "iiuuu");
    nuoskelma_round_said r = nuoskelma_round(I32(0), I32(1), U32(2), (int32_t)scalars[0], U32(3), U32(4));
    say(r.number);
    say((int64_t)r.place);
    say(r.kind);
    say(r.left);
    say(r.right);
    say((int64_t)r.kept);
}

static void bridge(void) {
    form(1, "iiu");
    nuoskelma_bridged r = nuoskelma_bridge(I32(0), I32(1), (int32_t)scalars[0], U32(2));
    say(r.number);
    say((int64_t)r.place);
    say(r.left);
    say(r.right);
}

static void chains(void) {
    form(0, "iiuuu");
    nuoskelma_chained r = nuoskelma_chains(I32(0), I32(1), U32(2), U32(3), U32(4));
    say(r.number);
    say((int64_t)r.place);
    say((int64_t)r.upper);
    say((int64_t)r.lower);
}

static void ring(void) {
    form(0, "iiiiu");
    say_counted(nuoskelma_ring(I32(0), I32(1), I32(2), I32(3), U32(4)));
}

static void hand_for(void) {
    form(1, "");
    nuoskelma_hand_made r = nuoskelma_hand_for((size_t)scalars[0]);
    say(r.number);
    say((int64_t)r.place);
    say_hand(r.hand);
}

static void hand_step(void) {
    form(2, "");
    nuoskelma_hand hand = {(size_t)scalars[0], (size_t)scalars[1]};
    nuoskelma_hand_stepped r = nuoskelma_hand_step(hand);
    say(r.number);
    say((int64_t)r.place);
    say((int64_t)r.from);
    say((int64_t)r.to);
    say_hand(r.hand);
}

static void strongest(void) {
    form(2, "ii");
    nuoskelma_strongest_set r = nuoskelma_strongest(I32(0), I32(1), (int32_t)scalars[0], (int32_t)scalars[1]);
    say(r.number);
    say((int64_t)r.place);
    say(r.set);
    say((int64_t)r.at);
}

static void cover(void) {
    form(2, "ii");
    nuoskelma_cover_told r = nuoskelma_cover(I32(0), I32(1), (int32_t)scalars[0], (int32_t)scalars[1]);
    say(r.number);
    say((int64_t)r.place);
    say(r.covered);
}

static void turn_about(void) {
    form(0, "iiii");
    say_counted(nuoskelma_turn_about(I32(0), I32(1), I32(2), I32(3)));
}

static void join(void) {
    form(0, "iiiiiiu");
    say_counted(nuoskelma_join(I32(0), I32(1), I32(2), I32(3), I32(4), I32(5), U32(6)));
}

static void part(void) {
    form(1, "");
    double x;
    memcpy(&x, &scalars[0], 8);
    nuoskelma_part_taken r = nuoskelma_part(x);
    say(r.number);
    say(r.value);
    say(bits_of(r.back));
}

static void readings(void) {
    form(0, "ddii");
    nuoskelma_readings_taken r = nuoskelma_readings(F64(0), F64(1), I32(2), I32(3));
    say(r.number);
    say((int64_t)r.place);
    say((int64_t)r.count);
    say(bits_of(r.back));
}

static void record(void) {
    form(0, "bii");
    say_counted(nuoskelma_record(BYTES(0), I32(1), I32(2)));
}

static void write_record(void) {
    form(2, "iib");
    say_counted(nuoskelma_write_record((uint8_t)scalars[0], (uint8_t)scalars[1], I32(0), I32(1), BYTES(2)));
}

static void sum(void) {
    form(0, "iiiiiiu");
    say_counted(nuoskelma_sum(I32(0), I32(1), I32(2), I32(3), I32(4), I32(5), U32(6)));
}

static void use_stack(void) {
    form(1, "");
    volatile uint8_t *used = __builtin_alloca((size_t)scalars[0]);
    for (size_t i = (size_t)scalars[0]; i > 0; i--) used[i - 1] = 0;
}

static void answer(uint32_t op) {
    switch (op) {
    case 1: pick(); break;
    case 2: round_(); break;
    case 3: bridge(); break;
    case 4: chains(); break;
    case 5: ring(); break;
    case 6: hand_for(); break;
    case 7: hand_step(); break;
    case 8: strongest(); break;
    case 9: cover(); break;
    case 10: turn_about(); break;
    case 11: join(); break;
    case 12: part(); break;
    case 13: readings(); break;
    case 14: record(); break;
    case 15: write_record(); break;
    case 16: sum(); break;
    case 17: use_stack(); break;
    default: flush(); exit(UNKNOWN_OP);
    }
}

/* ---- the small stack */

enum { SMALL_STACK = 1 << 16, BELOW_IT = 1 << 20 };

/* as Linux has them on x86-64 */
enum { NO_USE = 0, READ_AND_WRITE = 3, PRIVATE_AND_FRESH = 0x22 };

static uint8_t *small_stack;

static void make_small_stack(void) {
    uint8_t *at = mmap(NULL, BELOW_IT + SMALL_STACK, NO_USE, PRIVATE_AND_FRESH, -1, 0);
    if (at == (uint8_t *)-1 || mprotect(at + BELOW_IT, SMALL_STACK, READ_AND_WRITE) != 0) exit(BAD_REQUEST);
    small_stack = at + BELOW_IT;
}

static void answer_on_small_stack(uint32_t op) {
    if (small_stack == NULL) make_small_stack();
    memset(small_stack, GUARD_BYTE, SMALL_STACK);
    __asm__ volatile("movq %%rsp, %%rbx\n\t"
                     "movq %[top], %%rsp\n\t"
                     "call *%[run]\n\t"
                     "movq %%rbx, %%rsp"
                     : "+D"(op)
                     : [top] "r"(small_stack + SMALL_STACK), [run] "r"(answer)
                     : "rax", "rbx", "rcx", "rdx", "rsi", "r8", "r9", "r10", "r11", "xmm0", "xmm1", "xmm2", "xmm3", "xmm4", "xmm5", "xmm6", "xmm7", "xmm8",
                       "xmm9", "xmm10", "xmm11", "xmm12", "xmm13", "xmm14", "xmm15", "cc", "memory");
    size_t unused = 0;
    while (unused < SMALL_STACK && small_stack[unused] == GUARD_BYTE) unused++;
    say((int64_t)(SMALL_STACK - unused));
}

/* what is added to an op */
enum { ON_SMALL_STACK = 100, EMPTY_IS_NULL = 200 };

int main(void) {
    while (more()) {
        uint32_t op = get_u32();
        int empty_is_null = op >= EMPTY_IS_NULL;
        if (empty_is_null) op -= EMPTY_IS_NULL;
        get_request(empty_is_null);
        if (empty_is_null) flush();
        if (op < ON_SMALL_STACK) {
            answer(op);
        } else {
            answer_on_small_stack(op - ON_SMALL_STACK);
        }
        check_guards();
        put_response();
    }
    flush();
    return 0;
}
