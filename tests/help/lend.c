/* Puts each question of standard input to one of the seven functions of skeptolyr.h, and writes the answer and every lent run whole.
 *
 * A question is its kind (1 check, 2 decode, 3 describe, 4 place, 5 sheet, 6 point, 7 picture), k, n, start, the lengths of two runs, how many elements of
 * each run are to be written from `start` on (2^64 - 1 where the call is to be refused), the file's length, the number of its patches, and each patch: its
 * place, its length, its octets. Between its patches a file is zero. The length 2^64 - 1 stands for the file of the question before. Numbers have eight
 * octets, the first counting most. The first run has elements of eight octets, and the second has single octets. Decode is lent both, for doubles and for
 * presence, point the first for doubles, describe, place and sheet the first for numbers, picture the second, and check none. All but decode start at the
 * first element. What is written is the answer, in eight octets likewise, and where elements are to be written every element of each run that was lent, as it
 * lies in memory.
 *
 * Whatever a call has no business with cannot be reached, and touching it ends the program. The file lies in memory that can only be read, once
 * right behind an unreadable page and once right before one. The runs of a call that is to be refused lie in memory that can be neither read nor
 * written. Those of another call are lent twice: once everything before the stretch that is written is out of reach, and once everything behind it.
 * Both times the answer and the stretch must be the same. */
#include "lent.h"
#include "skeptolyr.h"

#include <signal.h>
#include <string.h>
#include <unistd.h>

enum { CHECK = 1, DECODE = 2, DESCRIBE = 3, PLACE = 4, SHEET = 5, POINT = 6, PICTURE = 7, MOST_RUNS = 2, MOST_PATCHES = 64, UNTOUCHED = 0xa5 };

static const uint64_t none = UINT64_MAX;

struct question {
    uint64_t kind, k, n, start, lengths[MOST_RUNS], written;
};

struct patch {
    uint64_t place, length;
};

/* The file of a question: its length, and where it is not zero. */
struct file {
    uint64_t length;
    size_t count;
    struct patch patches[MOST_PATCHES];
};

/* Memory for files that is written at one place and lent at another, where it can only be read. */
struct view {
    uint8_t *written, *lent;
};

/* Memory for one run, of elements of so many octets, with as much unreachable memory on either side. */
struct run {
    uint8_t *first;
    size_t size;
};

static size_t page, file_room, run_room;

static struct view new_view(void)
{
    struct view v;
    FILE *object = tmpfile();
    if (object == NULL || ftruncate(fileno(object), (off_t)file_room) != 0)
        give_up("lend: memory");
    v.written = mmap(NULL, file_room, PROT_READ | PROT_WRITE, MAP_SHARED, fileno(object), 0);
    v.lent = between_guards(file_room, page);
    if (v.written == MAP_FAILED || mmap(v.lent, file_room, PROT_READ, MAP_SHARED | MAP_FIXED, fileno(object), 0) == MAP_FAILED)
        give_up("lend: memory");
    return v;
}

static struct run new_run(size_t size)
{
    struct run r = {mmap(NULL, 3 * run_room, PROT_NONE, MAP_PRIVATE | MAP_ANONYMOUS | MAP_NORESERVE, -1, 0), size};
    if (r.first == MAP_FAILED || mprotect(r.first + run_room, run_room, PROT_READ | PROT_WRITE) != 0)
        give_up("lend: memory");
    r.first += run_room;
    return r;
}

static uint64_t number(void)
{
    uint64_t value;
    if (!get_number(&value))
        give_up("lend: input");
    return value;
}

/* Says what has happened, behind all answers so far. No answer is being written meanwhile: only proved code touches memory that cannot be reached. */
static void touched(int number)
{
    (void)number;
    fflush(stdout);
    fprintf(stderr, "lend: memory was touched that was not lent\n");
    _exit(2);
}

static void demand(int holds, const char *what)
{
    if (!holds) {
        fprintf(stderr, "lend: %s\n", what);
        exit(2);
    }
}

/* Makes the octets of the file's patches zero again, in a view whose file begins at `at`. */
static void clear(const struct file *file, uint8_t *at)
{
    for (size_t i = 0; i < file->count; i++)
        memset(at + file->patches[i].place, 0, file->patches[i].length);
}

/* Reads the question's file to the start of one view and to the end of the other, unless it is the file before. */
static void get_file(struct file *file, struct view front, struct view back)
{
    uint64_t length = number();
    if (length == none)
        return;
    clear(file, front.written);
    clear(file, back.written + file_room - file->length);
    file->length = length;
    file->count = number();
    demand(length <= file_room && file->count <= MOST_PATCHES, "the file is too large");
    for (size_t i = 0; i < file->count; i++) {
        struct patch p = {number(), 0};
        p.length = number();
        demand(p.place <= length && p.length <= length - p.place, "a patch is outside its file");
        if (fread(front.written + p.place, 1, p.length, stdin) != p.length)
            give_up("lend: input");
        memcpy(back.written + file_room - length + p.place, front.written + p.place, p.length);
        file->patches[i] = p;
    }
}

/* Does a question lend the run of this number? */
static int lends(const struct question *q, int run)
{
    return q->kind == DECODE || (q->kind != CHECK && run == (q->kind == PICTURE));
}

static int get_question(struct question *q)
{
    if (!get_number(&q->kind))
        return 0;
    q->k = number();
    q->n = number();
    q->start = number();
    for (int i = 0; i < MOST_RUNS; i++) {
        q->lengths[i] = number();
        demand(q->lengths[i] <= run_room / (i == 0 ? sizeof(double) : 1), "a run is too long");
    }
    q->written = number();
    demand(q->kind >= CHECK && q->kind <= PICTURE, "there is no such question");
    for (int i = 0; i < MOST_RUNS; i++)
        demand(q->written == none || !lends(q, i) || (q->start <= q->lengths[i] && q->written <= q->lengths[i] - q->start), "the stretch is outside the run");
    return 1;
}

/* Where a run begins whose element `start` is the first that can be reached, and whose elements from there on are untouched. */
static uint8_t *nothing_before(struct run r, uint64_t start, uint64_t length)
{
    memset(r.first, UNTOUCHED, (length - start) * r.size);
    return r.first - start * r.size;
}

/* Where a run begins whose element `end` is the first that cannot be reached, and whose elements up to there are untouched. */
static uint8_t *nothing_behind(struct run r, uint64_t end)
{
    memset(r.first + run_room - end * r.size, UNTOUCHED, end * r.size);
    return r.first + run_room - end * r.size;
}

/* Asks about a file at `file`, with runs that begin at `first` and `second`. */
static uint64_t ask(struct question q, const uint8_t *file, uint64_t length, void *first, void *second)
{
    switch (q.kind) {
    case CHECK:
        return skeptolyr_check(file, length);
    case DECODE:
        return skeptolyr_decode(file, length, q.k, q.start, first, q.lengths[0], second, q.lengths[1]);
    case DESCRIBE:
        return skeptolyr_describe(file, length, q.k, first, q.lengths[0]);
    case PLACE:
        return skeptolyr_place(file, length, q.k, q.n, first, q.lengths[0]);
    case SHEET:
        return skeptolyr_sheet(file, length, q.k, q.n, first, q.lengths[0]);
    case PICTURE:
        return skeptolyr_picture(file, length, q.k, second, q.lengths[1]);
    default:
        return skeptolyr_point(file, length, q.k, q.n, first, q.lengths[0]);
    }
}

/* The answer to a question about a file at `front`, and again at `back`: no run can be touched. */
static uint64_t refused(struct question q, uint64_t length, const uint8_t *front, const uint8_t *back, const struct run *runs)
{
    uint64_t code = ask(q, front, length, runs[0].first - run_room, runs[1].first - run_room);
    uint64_t again = ask(q, back, length, runs[0].first + run_room, runs[1].first + run_room);
    demand(code == again, "two answers at two places of memory");
    return code;
}

static void put(uint64_t code)
{
    for (int i = 56; i >= 0; i -= 8)
        putchar((int)(code >> i & 255));
}

/* Asks twice, with two sets of runs, and writes the answer and every element: those before the stretch as they are after the call that could reach them,
 * and the others likewise. */
static void answered(struct question q, uint64_t length, const uint8_t *front, const uint8_t *back, const struct run *one, const struct run *other)
{
    uint8_t *at[MOST_RUNS] = {NULL}, *again_at[MOST_RUNS] = {NULL};
    for (int i = 0; i < MOST_RUNS; i++) {
        if (!lends(&q, i))
            continue;
        at[i] = nothing_before(one[i], q.start, q.lengths[i]);
        again_at[i] = nothing_behind(other[i], q.start + q.written);
    }
    uint64_t code = ask(q, front, length, at[0], at[1]), again = ask(q, back, length, again_at[0], again_at[1]);
    demand(code == again, "two answers at two places of memory");
    put(code);
    for (int i = 0; i < MOST_RUNS; i++) {
        size_t size = one[i].size;
        if (!lends(&q, i))
            continue;
        demand(memcmp(one[i].first, again_at[i] + q.start * size, q.written * size) == 0, "two stretches at two places of memory");
        fwrite(again_at[i], size, q.start, stdout);
        fwrite(one[i].first, size, q.lengths[i] - q.start, stdout);
    }
}

int main(void)
{
    struct question q;
    static struct file file;
    signal(SIGSEGV, touched);
    signal(SIGBUS, touched);
    page = (size_t)sysconf(_SC_PAGESIZE);
    file_room = (UINT64_C(1) << 28) + page;
    run_room = (UINT64_C(1) << 26) / page * page;
    struct view front = new_view(), back = new_view();
    struct run one[MOST_RUNS] = {new_run(sizeof(double)), new_run(1)}, other[MOST_RUNS] = {new_run(sizeof(double)), new_run(1)};

    while (get_question(&q)) {
        get_file(&file, front, back);
        const uint8_t *last = back.lent + file_room - file.length;
        if (q.written != none)
            answered(q, file.length, front.lent, last, one, other);
        else
            put(refused(q, file.length, front.lent, last, one));
    }
    return 0;
}
