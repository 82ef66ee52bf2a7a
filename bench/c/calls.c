/* Tries the C library: bench/c/try builds and runs it. Each try prints a line, and ends with 1 where something differs. */
#define _GNU_SOURCE
#include <monastr.h>
#include <pthread.h>
#include <stdio.h>
#include <stdlib.h>
#include <string.h>
#include <time.h>
#include <unistd.h>

enum { WORDS = 8, FILES = 8, BYTES = 1 << 16 };

/* A request that is put together piece by piece. */
struct asked {
    uint8_t words[BYTES];
    uint64_t word_lengths[WORDS];
    uint8_t files[BYTES];
    struct monastr_file file_lengths[FILES];
    struct monastr_request request;
};

/* What came of it. */
struct came {
    uint32_t status;
    struct monastr_answer answer;
    uint8_t room[BYTES];
    struct monastr_file written[FILES];
};

static int faults;

static void fault(const char *what, const char *detail)
{
    printf("  DIFFERS %s: %s\n", what, detail);
    faults++;
}

static void expect(int holds, const char *what, const char *detail)
{
    if (!holds) fault(what, detail);
}

static struct asked *ask(void)
{
    struct asked *asked = calloc(1, sizeof *asked);
    asked->request.words = asked->words;
    asked->request.word_lengths = asked->word_lengths;
    asked->request.files = asked->files;
    asked->request.file_lengths = asked->file_lengths;
    return asked;
}

static void word_of(struct asked *asked, const void *word, size_t size)
{
    struct monastr_request *request = &asked->request;
    memcpy(asked->words + request->words_size, word, size);
    request->words_size += size;
    asked->word_lengths[request->word_count++] = size;
}

static void words(struct asked *asked, const char *first, const char *second, const char *third, const char *fourth)
{
    const char *all[] = {first, second, third, fourth};
    for (int i = 0; i < 4; i++)
        if (all[i]) word_of(asked, all[i], strlen(all[i]));
}

static void file_of(struct asked *asked, const void *name, size_t name_size, const void *content, size_t size)
{
    struct monastr_request *request = &asked->request;
    memcpy(asked->files + request->files_size, name, name_size);
    memcpy(asked->files + request->files_size + name_size, content, size);
    request->files_size += name_size + size;
    asked->file_lengths[request->file_count].name = name_size;
    asked->file_lengths[request->file_count++].content = size;
}

static void file(struct asked *asked, const char *name, const char *content)
{
    file_of(asked, name, strlen(name), content, strlen(content));
}

static uint32_t run_in(const struct asked *asked, struct came *came, size_t room, size_t written)
{
    memset(came->room, 0xee, sizeof came->room);
    memset(came->written, 0xee, sizeof came->written);
    memset(&came->answer, 0xee, sizeof came->answer);
    return came->status = monastr_run(&asked->request, came->room, room, came->written, written, &came->answer);
}

static uint32_t run(const struct asked *asked, struct came *came)
{
    return run_in(asked, came, sizeof came->room, FILES);
}

/* The bytes from here on are those that were put there. */
static int untouched(const void *at, size_t from, size_t to)
{
    for (size_t i = from; i < to; i++)
        if (((const uint8_t *)at)[i] != 0xee) return 0;
    return 1;
}

static int is_text(const struct came *came, const char *text)
{
    return came->answer.text == strlen(text) && !memcmp(came->room, text, strlen(text));
}

static struct asked *inclusion(void)
{
    struct asked *asked = ask();
    words(asked, "decide", "a.mona", NULL, NULL);
    file(asked, "a.mona", "ws1s; var2 P, Q; P sub Q;");
    return asked;
}

/* A request that writes two files. */
static struct asked *exporting(void)
{
    struct asked *asked = ask();
    words(asked, "decide", "a.mona", "--out", "main.dfa");
    file(asked, "a.mona", "var2 P, Q; export(\"sub.dfa\", P sub Q); P = Q;");
    return asked;
}

/* A request that reads several files, imports one of them, and decides a goal. */
static struct asked *reading(void)
{
    struct asked *asked = ask();
    words(asked, "decide", "a.mona", NULL, NULL);
    file(asked, "a.mona", "include \"b.mona\"; var2 A, B; var1 x; import(\"sub.dfa\", P -> A, Q -> B) & p(x); goal \"some\" ex1 y: y = x;");
    file(asked, "b.mona", "pred p(var1 t) = t > 3;");
    file(asked, "sub.dfa", "monastr-dfa 2\nmode ws1s\nvariables 2\n2 P\n2 Q\nstart s0\nstates 2\n+ n1\n- s1\nnodes 2\n1 s1 s0\n0 s0 n0\nend\n");
    return asked;
}

static struct asked *refused(void)
{
    struct asked *asked = ask();
    words(asked, "decide", "a.mona", NULL, NULL);
    file(asked, "a.mona", "var2 A; A sub B;");
    return asked;
}

static struct asked *temporal(void)
{
    struct asked *asked = ask();
    words(asked, "ltl", "a.ltl", NULL, NULL);
    file(asked, "a.ltl", "p U q;");
    return asked;
}

static struct asked *arithmetic(void)
{
    struct asked *asked = ask();
    words(asked, "presburger", "a.presburger", NULL, NULL);
    file(asked, "a.presburger", "x + y = 3 & x < y;");
    return asked;
}

static struct asked *certifying(void)
{
    struct asked *asked = ask();
    words(asked, "certify", "a.mona", "f.dfa", NULL);
    file(asked, "a.mona", "var2 P, Q; P sub Q;");
    return asked;
}

static struct asked *(*const KINDS[])(void) = {inclusion, exporting, reading, refused, temporal, arithmetic, certifying};
enum { KIND_COUNT = sizeof KINDS / sizeof *KINDS };

static int same_came(const struct came *one, const struct came *two)
{
    return one->status == two->status && !memcmp(&one->answer, &two->answer, sizeof one->answer)
        && !memcmp(one->room, two->room, sizeof one->room) && !memcmp(one->written, two->written, sizeof one->written);
}

static double seconds(clockid_t clock)
{
    struct timespec now;
    clock_gettime(clock, &now);
    return (double)now.tv_sec + (double)now.tv_nsec * 1e-9;
}

static long resident(void)
{
    long size = 0, pages = 0;
    FILE *stat = fopen("/proc/self/statm", "r");
    if (stat && fscanf(stat, "%ld %ld", &size, &pages) != 2) pages = 0;
    if (stat) fclose(stat);
    return pages * sysconf(_SC_PAGESIZE) / 1024;
}

/* What the first requests come to. */
static void try_texts(void)
{
    struct came *came = malloc(sizeof *came);
    struct asked *asked = inclusion();
    run(asked, came);
    expect(came->status == MONASTR_DONE && is_text(came, "contingent\nexample length 0\nP = {}\nQ = {}\ncounterexample length 1\nP = {0}\nQ = {}\n"),
           "texts", "inclusion");
    expect(came->answer.files == 0 && came->answer.bytes == came->answer.text, "texts", "inclusion writes nothing");
    free(asked);
    asked = exporting();
    run(asked, came);
    const char *sub = "sub.dfamonastr-dfa 2\nmode ws1s\nvariables 2\n2 P\n2 Q\nstart s0\nstates 2\n+ n1\n- s1\nnodes 2\n1 s1 s0\n0 s0 n0\nend\nmain.dfa";
    expect(came->status == MONASTR_DONE && came->answer.files == 2 && came->written[0].name == 7 && came->written[0].content == 100
           && came->written[1].name == 8 && !memcmp(came->room + came->answer.text, sub, strlen(sub)), "texts", "written files");
    expect(came->answer.bytes == came->answer.text + 7 + 100 + 8 + came->written[1].content, "texts", "bytes of written files");
    free(asked);
    asked = refused();
    run(asked, came);
    expect(came->status == MONASTR_REFUSED && is_text(came, "20 unknown name at a.mona:14: B\n"), "texts", "refusal");
    free(asked);
    asked = temporal();
    run(asked, came);
    expect(came->status == MONASTR_DONE && is_text(came, "contingent\ntrace length 1\np = {}\nq = {0}\ncountertrace length 1\np = {}\nq = {}\n"), "texts", "ltl");
    free(asked);
    asked = arithmetic();
    run(asked, came);
    expect(came->status == MONASTR_DONE && is_text(came, "contingent\nexample digits 2\nx = 0b0 = 0\ny = 0b11 = 3\ncounterexample digits 0\nx = 0b0 = 0\ny = 0b0 = 0\n"),
           "texts", "presburger");
    free(asked);
    asked = certifying();
    run(asked, came);
    expect(came->status == MONASTR_DONE && came->answer.files == 2 && came->written[1].name == strlen("f.dfa.cert"), "texts", "certify");
    struct asked *checking = ask();
    words(checking, "check", "f.dfa", NULL, NULL);
    const uint8_t *at = came->room + came->answer.text;
    for (int i = 0; i < 2; i++) {
        file_of(checking, at, came->written[i].name, at + came->written[i].name, came->written[i].content);
        at += came->written[i].name + came->written[i].content;
    }
    run(checking, came);
    expect(came->status == MONASTR_DONE && is_text(came, "yes\nstates 2\nexample length 0\ncounterexample length 1\n"), "texts", "check");
    free(checking);
    free(asked);
    asked = reading();
    run(asked, came);
    expect(came->status == MONASTR_DONE && came->answer.files == 0, "texts", "includes and imports");
    free(asked);
    free(came);
    printf("texts: %d kinds of requests\n", KIND_COUNT + 1);
}

/* Rooms of each length around what is needed. */
static void try_rooms(void)
{
    struct came *whole = malloc(sizeof *whole), *came = malloc(sizeof *came);
    long tried = 0;
    for (int kind = 0; kind < KIND_COUNT; kind++) {
        struct asked *asked = KINDS[kind]();
        run(asked, whole);
        expect(untouched(whole->room, whole->answer.bytes, sizeof whole->room), "rooms", "behind the outcome");
        for (size_t room = 0; room <= whole->answer.bytes + 9; room++)
            for (size_t written = 0; written <= whole->answer.files + 2; written++, tried++) {
                run_in(asked, came, room, written);
                if (room >= whole->answer.bytes && written >= whole->answer.files) {
                    expect(same_came(whole, came), "rooms", "enough room gives the outcome");
                    continue;
                }
                expect(came->status == MONASTR_TOO_LONG, "rooms", "too little room is said");
                expect(!memcmp(&came->answer, &whole->answer, sizeof came->answer), "rooms", "what is needed is said");
                expect(untouched(came->room, 0, sizeof came->room) && untouched(came->written, 0, sizeof came->written), "rooms", "the room stays");
            }
        free(asked);
    }
    free(whole);
    free(came);
    printf("rooms: %ld rooms around what is needed\n", tried);
}

/* Requests that are none, and words and files of odd kinds. */
static void try_hostile(void)
{
    struct came *came = malloc(sizeof *came);
    struct asked *asked = ask();
    long tried = 0;
#define ANSWERS(wanted, what) do { run(asked, came); tried++; expect(came->status == (wanted), "hostile", what); \
        expect(came->status <= MONASTR_LIMIT || (untouched(came->room, 0, BYTES) && untouched(came->written, 0, sizeof came->written)), "hostile", "the room stays"); \
        free(asked); asked = ask(); } while (0)
    ANSWERS(MONASTR_USAGE, "no words");
    words(asked, "", "", "", NULL);
    ANSWERS(MONASTR_USAGE, "empty words");
    words(asked, "decide", "a.mona", "--max-nodes", "0");
    ANSWERS(MONASTR_USAGE, "no limit");
    word_of(asked, "decide\0", 7);
    ANSWERS(MONASTR_USAGE, "a zero byte in a word");
    words(asked, "decide", NULL, NULL, NULL);
    word_of(asked, "\xff", 1);
    ANSWERS(MONASTR_NOT_TEXT, "a word that is no UTF-8");
    words(asked, "decide", "a.mona", NULL, NULL);
    file_of(asked, "\xc3(", 2, "true;", 5);
    ANSWERS(MONASTR_NOT_TEXT, "a name that is no UTF-8");
    word_of(asked, "\xed\xa0\x80", 3);
    ANSWERS(MONASTR_NOT_TEXT, "half of a pair");
    words(asked, "decide", "a.mona", NULL, NULL);
    asked->request.words_size--;
    ANSWERS(MONASTR_LENGTHS, "a word is longer than the bytes");
    words(asked, "decide", "a.mona", NULL, NULL);
    asked->request.words_size++;
    ANSWERS(MONASTR_LENGTHS, "a byte is no word's");
    words(asked, "gen", "1", NULL, NULL);
    asked->word_lengths[0] = UINT64_MAX;
    asked->word_lengths[1] = 5;
    ANSWERS(MONASTR_LENGTHS, "lengths that add up past 2^64");
    words(asked, "gen", "1", NULL, NULL);
    file(asked, "a", "b");
    asked->file_lengths[0].name = UINT64_MAX;
    asked->file_lengths[0].content = 3;
    ANSWERS(MONASTR_LENGTHS, "lengths of a file that add up past 2^64");
    words(asked, "gen", "1", NULL, NULL);
    file(asked, "a", "b");
    asked->file_lengths[0].content = 0;
    ANSWERS(MONASTR_LENGTHS, "a byte is no file's");
    words(asked, "gen", "1", NULL, NULL);
    asked->request.files_size = 1;
    ANSWERS(MONASTR_LENGTHS, "bytes without a file");
    words(asked, "decide", "", NULL, NULL);
    file(asked, "", "true;");
    ANSWERS(MONASTR_DONE, "a file without a name");
    words(asked, "decide", "a", NULL, NULL);
    file(asked, "a", "");
    ANSWERS(MONASTR_DONE, "a file without bytes");
    words(asked, "decide", "a", NULL, NULL);
    file(asked, "a", "@");
    file(asked, "a", "true;");
    ANSWERS(MONASTR_DONE, "the last of two files with one name");
    words(asked, "decide", "a", NULL, NULL);
    file(asked, "b", "true;");
    ANSWERS(MONASTR_REFUSED, "a file that is not there");
    words(asked, "decide", "a", NULL, NULL);
    file_of(asked, "a", 1, "true; /* \xff\x00 */", 14);
    ANSWERS(MONASTR_DONE, "any bytes in a comment");
    words(asked, "decide", "a", "--max-nodes", "1");
    file(asked, "a", "var2 P, Q; P sub Q;");
    ANSWERS(MONASTR_LIMIT, "too few nodes");

    uint64_t many = 100000;
    uint64_t *lengths = calloc(many, sizeof *lengths);
    asked->request.word_lengths = lengths;
    asked->request.word_count = many;
    ANSWERS(MONASTR_USAGE, "100,000 empty words");
    free(lengths);
    struct monastr_file *files = calloc(many, sizeof *files);
    words(asked, "gen", "1", NULL, NULL);
    asked->request.file_lengths = files;
    asked->request.file_count = many;
    ANSWERS(MONASTR_DONE, "100,000 files without names and bytes");
    free(files);
    size_t size = (1 << 20) + 2;
    uint8_t *large = malloc(size);
    memset(large, ' ', size);
    large[0] = 'a';
    struct monastr_file one = {1, size - 1};
    words(asked, "decide", "a", NULL, NULL);
    asked->request.files = large;
    asked->request.files_size = size;
    asked->request.file_lengths = &one;
    asked->request.file_count = 1;
    ANSWERS(MONASTR_LIMIT, "a file of more than 1 MiB");
    free(large);
    srand(1);
    for (int i = 0; i < 20000; i++) {
        for (int j = rand() % WORDS; j > 0; j--) {
            uint8_t word[4] = {(uint8_t)rand(), (uint8_t)rand(), (uint8_t)rand(), (uint8_t)rand()};
            word_of(asked, word, (size_t)(rand() % 5));
        }
        for (int j = rand() % FILES; j > 0; j--) {
            uint8_t bytes[8] = {(uint8_t)rand(), 'a', (uint8_t)rand(), ';', (uint8_t)rand(), (uint8_t)rand(), 0, 1};
            file_of(asked, bytes, (size_t)(rand() % 3), bytes + 2, (size_t)(rand() % 6));
        }
        asked->request.words_size += (size_t)(rand() % 20 == 0);
        if (rand() % 20 == 0) asked->file_lengths[0].name = (uint64_t)rand() << (rand() % 40);
        run(asked, came);
        tried++;
        expect(came->status == MONASTR_USAGE || came->status == MONASTR_LENGTHS || came->status == MONASTR_NOT_TEXT, "hostile", "random bytes");
        memset(asked->words, 0, sizeof asked->words);
        memset(asked->files, 0, sizeof asked->files);
        asked->request.words_size = asked->request.word_count = asked->request.files_size = asked->request.file_count = 0;
    }
    free(asked);
    free(came);
    printf("hostile: %ld requests\n", tried);
}

/* Many calls, and whether memory grows, where that can be told: under valgrind it is valgrind's own that is seen. */
static void try_calls(long count, int is_told)
{
    struct came *came = malloc(sizeof *came);
    struct asked *asked[KIND_COUNT];
    for (int kind = 0; kind < KIND_COUNT; kind++) asked[kind] = KINDS[kind]();
    for (long i = 0; i < count / 100 + 20; i++) run(asked[i % KIND_COUNT], came);
    long before = resident();
    for (long i = 0; i < count; i++) run(asked[i % KIND_COUNT], came);
    long after = resident();
    expect(!is_told || after - before < 256, "calls", "memory grows");
    if (is_told) printf("calls: %ld calls, %ld KiB resident before and %ld KiB after\n", count, before, after);
    else printf("calls: %ld calls\n", count);
    for (int kind = 0; kind < KIND_COUNT; kind++) free(asked[kind]);
    free(came);
}

/* What a call costs: the least processor time of 20 rounds. */
static void try_cost(long count)
{
    static const char *const names[] = {"inclusion", "two exports", "includes and an import", "a refusal", "temporal logic", "arithmetic", "a certificate"};
    struct came *came = malloc(sizeof *came);
    for (int kind = 0; kind < KIND_COUNT; kind++) {
        struct asked *asked = KINDS[kind]();
        double best = 1e9;
        for (int round = 0; round < 20; round++) {
            double begin = seconds(CLOCK_PROCESS_CPUTIME_ID);
            for (long i = 0; i < count; i++)
                monastr_run(&asked->request, came->room, sizeof came->room, came->written, FILES, &came->answer);
            double each = (seconds(CLOCK_PROCESS_CPUTIME_ID) - begin) / (double)count;
            if (each < best) best = each;
        }
        printf("cost: %.1f microseconds for %s\n", best * 1e6, names[kind]);
        free(asked);
    }
    free(came);
}

/* One of several threads: it asks in turn and compares with what came before. */
struct turn {
    struct asked *asked[KIND_COUNT];
    struct came *wanted[KIND_COUNT];
    int first, differ;
    long count;
};

static void *take_turns(void *of)
{
    struct turn *turn = of;
    struct came *came = malloc(sizeof *came);
    for (long i = 0; i < turn->count; i++) {
        int kind = (int)((turn->first + i) % KIND_COUNT);
        run(turn->asked[kind], came);
        turn->differ += !same_came(turn->wanted[kind], came);
    }
    free(came);
    return NULL;
}

static void try_threads(long count)
{
    enum { THREADS = 4 };
    struct turn turns[THREADS];
    pthread_t threads[THREADS];
    for (int t = 0; t < THREADS; t++) {
        turns[t].first = t;
        turns[t].differ = 0;
        turns[t].count = count;
        for (int kind = 0; kind < KIND_COUNT; kind++) {
            turns[t].asked[kind] = KINDS[kind]();
            turns[t].wanted[kind] = malloc(sizeof **turns[t].wanted);
            run(turns[t].asked[kind], turns[t].wanted[kind]);
        }
    }
    double begin = seconds(CLOCK_MONOTONIC);
    for (int t = 0; t < THREADS; t++) pthread_create(&threads[t], NULL, take_turns, &turns[t]);
    for (int t = 0; t < THREADS; t++) pthread_join(threads[t], NULL);
    double took = seconds(CLOCK_MONOTONIC) - begin;
    for (int t = 0; t < THREADS; t++) {
        expect(turns[t].differ == 0, "threads", "an outcome");
        for (int kind = 0; kind < KIND_COUNT; kind++) {
            free(turns[t].asked[kind]);
            free(turns[t].wanted[kind]);
        }
    }
    printf("threads: %d threads at once, %ld calls each, %.2f seconds\n", THREADS, count, took);
}

/* Sources as deep as the limit, in a thread with a small stack. */
static void *go_deep(void *of)
{
    struct came *came = malloc(sizeof *came);
    static const char *const forms[][3] = {{"(", "true", ")"}, {"~", "true", ""}, {"ex2 X: ", "true", ""}, {"true => ", "true", ""}, {"let0 a = true in ", "a", ""}};
    for (size_t form = 0; form < sizeof forms / sizeof *forms; form++)
        for (int depth = 250; depth <= 320; depth += 10) {
            struct asked *asked = ask();
            char *text = calloc(1, 40 * 320 + 10);
            words(asked, "decide", "a", NULL, NULL);
            for (int i = 0; i < depth; i++) strcat(text, forms[form][0]);
            strcat(text, forms[form][1]);
            for (int i = 0; i < depth; i++) strcat(text, forms[form][2]);
            strcat(text, ";");
            file(asked, "a", text);
            run(asked, came);
            expect(came->status == MONASTR_DONE || came->status == MONASTR_LIMIT || came->status == MONASTR_REFUSED, "stack", text);
            ++*(long *)of;
            free(text);
            free(asked);
        }
    for (int kind = 0; kind < KIND_COUNT; kind++, ++*(long *)of) {
        struct asked *asked = KINDS[kind]();
        expect(run(asked, came) <= MONASTR_LIMIT, "stack", "a request");
        free(asked);
    }
    free(came);
    return NULL;
}

static void try_stack(void)
{
    pthread_attr_t attributes;
    pthread_t thread;
    long tried = 0;
    pthread_attr_init(&attributes);
    pthread_attr_setstacksize(&attributes, 512 * 1024);
    expect(pthread_create(&thread, &attributes, go_deep, &tried) == 0, "stack", "no thread");
    pthread_join(thread, NULL);
    pthread_attr_destroy(&attributes);
    printf("stack: %ld requests in a thread with 512 KiB\n", tried);
}

#ifdef WRAPPED
/* malloc, realloc and free as the library calls them: one of the calls that ask for memory is refused, and what is held is counted. */
void *__real_malloc(size_t size);
void *__real_realloc(void *old, size_t size);
void __real_free(void *at);

static long asked_for, refuse_at, held, inside;

static int refuses(void)
{
    return inside && ++asked_for == refuse_at;
}

void *__wrap_malloc(size_t size)
{
    void *at = refuses() ? NULL : __real_malloc(size);
    held += inside && at;
    return at;
}

void *__wrap_realloc(void *old, size_t size)
{
    void *at = refuses() ? NULL : __real_realloc(old, size);
    held += inside && at && !old;
    return at;
}

void __wrap_free(void *at)
{
    held -= inside && at;
    __real_free(at);
}

static void run_counted(const struct asked *asked, struct came *came, long refused_call)
{
    asked_for = 0;
    held = 0;
    refuse_at = refused_call;
    inside = 1;
    run(asked, came);
    inside = 0;
    expect(held == 0, "memory", "what was taken is given back");
}

static void try_memory(void)
{
    struct came *whole = malloc(sizeof *whole), *came = malloc(sizeof *came);
    long tried = 0;
    for (int kind = 0; kind < KIND_COUNT; kind++) {
        struct asked *asked = KINDS[kind]();
        run_counted(asked, whole, 0);
        long calls = asked_for;
        for (long i = 1; i <= calls; i++, tried++) {
            run_counted(asked, came, i);
            int refused = came->status == MONASTR_NO_MEMORY;
            expect(refused || same_came(whole, came), "memory", "a refused call changes the outcome");
            expect(!refused || (untouched(came->room, 0, sizeof came->room) && untouched(came->written, 0, sizeof came->written)), "memory", "the room stays");
        }
        free(asked);
    }
    free(whole);
    free(came);
    printf("memory: %ld calls of malloc and realloc refused, each in turn\n", tried);
}
#else
static void try_memory(void) { puts("memory: not tried, since the library's calls are not wrapped"); }
#endif

int main(int argc, char **argv)
{
    long count = argc > 2 ? atol(argv[2]) : 1000;
    for (const char *which = argc > 1 ? argv[1] : "trh"; *which; which++)
        switch (*which) {
        case 't': try_texts(); break;
        case 'r': try_rooms(); break;
        case 'h': try_hostile(); break;
        case 'c': try_calls(count, 1); break;
        case 'v': try_calls(count, 0); break;
        case 'e': try_cost(count); break;
        case 'p': try_threads(count); break;
        case 's': try_stack(); break;
        case 'm': try_memory(); break;
        default: return 2;
        }
    return faults > 0;
}
