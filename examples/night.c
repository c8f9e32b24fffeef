/* A host's night, from C: the first plan of examples/fairshare.c is solved, every search is kept as it is made, and the files become
   traces that `replay` can run again.

       night FILE          plan, and record; where a file would be larger than 65,536 bytes the next one, FILE.2, FILE.3 .., goes on
       night FILE RECORD   change one byte of the file: the lowest of the primal step of that record, counted from 0

   A trace has searches of single cones: for each search of the plan every cone's own search over its part is made and kept. Each record
   goes into the file when its search is made, so that a night that ends early leaves what `rescue` mends. examples/night.sh builds and runs
   it, replays the files, changes a byte, and replays again. */
#define FAIRSHARE_WITHOUT_MAIN
#include "fairshare.c"

enum { ROOM = 65536, ENTRY = 8, TRAILER = 20 }; /* the programs take a file of 65,536 bytes at most */

static uint8_t bytes[ROOM];

/* the file at hand: its number, where its records end, and how many there are; and the records of all files */
static struct {
    const char *name;
    FILE *file;
    unsigned number;
    size_t at, records, all;
} recording;

static void fail(const char *what, const char *why)
{
    fprintf(stderr, "night: %s: %s\n", what, why);
    exit(1);
}

static void next_file(void)
{
    char name[4096];
    if (recording.number)
        snprintf(name, sizeof name, "%s.%u", recording.name, recording.number + 1);
    else
        snprintf(name, sizeof name, "%s", recording.name);
    recording.number++;
    recording.at = recording.records = 0;
    recording.file = fopen(name, "wb");
    if (!recording.file) fail(name, "cannot be opened for writing");
}

/* what was just put or sealed goes behind the bytes that the file has */
static void write_on(size_t end)
{
    size_t n = end - recording.at;
    if (fwrite(bytes + recording.at, 1, n, recording.file) != n || fflush(recording.file)) fail(recording.name, "was not written whole");
    recording.at = end;
}

static void seal(void)
{
    SpindleWritten trace = spindle_trace_seal(bytes, ROOM, recording.at, SPINDLE_NEWEST_EDITION);
    must("trace_seal", trace.code);
    write_on(trace.length);
    if (fclose(recording.file)) fail(recording.name, "was not written whole");
    printf("file %u: %u records, %u bytes\n", recording.number, (unsigned)recording.records, (unsigned)trace.length);
}

/* One cone's search, and its record. List and trailer keep their room: where the record has none before them, the file is sealed and the
   next one begins. */
static void keep(SpindleCone cone, size_t n, const double *dz, const double *ds, const double *z, const double *s, SpindleSettings settings)
{
    double dual_point[64], primal_point[64];
    SpindleSteps steps = spindle_step_length(cone, dz, n, ds, n, z, n, s, n, dual_point, n, primal_point, n, settings);
    must("step_length", steps.code);
    for (;;) {
        size_t end = ROOM - ENTRY * (recording.records + 1) - TRAILER;
        if (end < recording.at) end = recording.at; /* a room that ends before its place would be no layout, 9, and not no room, 8 */
        /* flag 1: the search ran with the house's settings */
        SpindleWritten put =
            spindle_record_put(bytes, end, recording.at, SPINDLE_NEWEST_EDITION, cone, 1, settings, dz, n, ds, n, z, n, s, n, steps);
        if (put.code == SPINDLE_NO_ROOM && recording.records) {
            seal();
            next_file();
            continue;
        }
        must("record_put", put.code);
        recording.records++;
        recording.all++;
        write_on(put.length);
        return;
    }
}

static void keep_search(const Problem *p, const Point *at, const Point *along, SpindleSettings settings)
{
    for (int k = 0; k < p->ncones; k++) {
        int a = p->at[k];
        keep(p->cones[k], p->length[k], along->z + a, along->s + a, at->z + a, at->s + a, settings);
    }
}

static int record_plan(const char *name)
{
    recording.name = name;
    next_file();
    after_search = keep_search;
    bool held = plan("All three kinds", true, SPINDLE_DUAL, 1e-6);
    seal();
    printf("searches of a cone %u, files %u\n", (unsigned)recording.all, recording.number);
    return held ? 0 : 1;
}

static int change(const char *name, const char *word)
{
    FILE *file = fopen(name, "rb");
    if (!file) fail(name, "cannot be opened for reading");
    size_t used = fread(bytes, 1, sizeof bytes, file);
    fclose(file);
    char *end;
    unsigned long i = strtoul(word, &end, 10);
    if (!*word || *end || i > 4095) fail(word, "is no number of a record");
    SpindleRecorded record = spindle_trace_record(bytes, used, (uint32_t)i);
    must("trace_record", record.code);
    /* the primal step, 8 bytes, and the primal count, 4, are a record's end */
    bytes[record.next - 12] ^= 1;
    printf("record %lu, at %u: the lowest byte of its primal step is changed\n", i, (unsigned)record.at);
    file = fopen(name, "wb");
    if (!file) fail(name, "cannot be opened for writing");
    size_t written = fwrite(bytes, 1, used, file);
    if (fclose(file) || written != used) fail(name, "was not written whole");
    return 0;
}

int main(int words, char **word)
{
    if (words == 2) return record_plan(word[1]);
    if (words == 3) return change(word[1], word[2]);
    fprintf(stderr, "usage: night FILE [RECORD]\n");
    return 2;
}
