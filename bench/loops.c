/* Plain loops that do the like of what bench/run measures of tricks. Each prints a number, so that nothing is left out.

   loops jobs OBJECTS TICS   the generated simulation: three jobs an object, each called where its cycle divides the tic
   loops turns N             a loop that goes N times round a test and a count
   loops rows N FILE         N rows of a tic and eight numbers, each written by a call of its own
   loops scan FILE           sorts each byte of a file into letters, digits, white space and marks
   loops print N FILE        N lines `o.m[i] = number;` into a file
   loops load FILE           reads such lines back
   loops threads N TICS K    four loops of N steps a tic, shared among K threads, which meet after each tic */
#include <ctype.h>
#include <fcntl.h>
#include <pthread.h>
#include <stdio.h>
#include <stdlib.h>
#include <string.h>
#include <unistd.h>

struct object { long a, b, c; };
struct job { void (*run)(struct object *); struct object *object; long cycle; };

static void step_a(struct object *o) { o->a += 1; }
static void step_b(struct object *o) { o->b += o->a; }
static void step_c(struct object *o) { o->c = o->c + o->b - o->a; }

static long jobs(long count, long tics)
{
    struct object *objects = calloc(count, sizeof *objects);
    struct job *list = calloc(3 * count, sizeof *list);
    long sum = 0;
    for (long i = 0; i < count; i++) {
        list[3 * i] = (struct job){step_a, objects + i, 1};
        list[3 * i + 1] = (struct job){step_b, objects + i, 2};
        list[3 * i + 2] = (struct job){step_c, objects + i, 5};
    }
    for (long tic = 0; tic < tics; tic++)
        for (long k = 0; k < 3 * count; k++)
            if (tic % list[k].cycle == 0)
                list[k].run(list[k].object);
    for (long i = 0; i < count; i++)
        sum += objects[i].a + objects[i].b + objects[i].c;
    return sum;
}

static long turns(long count)
{
    volatile long turn = 0;
    while (turn < count)
        turn = turn + 1;
    return turn;
}

static long rows(long count, const char *name)
{
    char line[256];
    int file = open(name, O_WRONLY | O_CREAT | O_TRUNC, 0644);
    long bytes = 0;
    for (long tic = 0; tic < count; tic++) {
        char *end = line + sprintf(line, "%ld", tic);
        for (int i = 0; i < 8; i++)
            end += sprintf(end, ",%ld", tic);
        *end++ = '\n';
        bytes += write(file, line, end - line);
    }
    close(file);
    return bytes;
}

static char *whole(const char *name, long *length)
{
    FILE *file = fopen(name, "rb");
    fseek(file, 0, SEEK_END);
    *length = ftell(file);
    rewind(file);
    char *text = malloc(*length + 1);
    if (fread(text, 1, *length, file) != (size_t)*length)
        exit(1);
    text[*length] = 0;
    fclose(file);
    return text;
}

static long scan(const char *name)
{
    long length, kinds[4] = {0};
    char *text = whole(name, &length);
    for (long i = 0; i < length; i++) {
        unsigned char byte = text[i];
        kinds[isalpha(byte) || byte == '_' ? 0 : isdigit(byte) ? 1 : isspace(byte) ? 2 : 3]++;
    }
    return kinds[0] + 2 * kinds[1] + 3 * kinds[2] + 4 * kinds[3];
}

static long print(long count, const char *name)
{
    FILE *file = fopen(name, "wb");
    long bytes = 0;
    for (long i = 0; i < count; i++)
        bytes += fprintf(file, "o.m[%ld][%ld] = %ld;\n", i / 256, i % 256, i * 1000003);
    fclose(file);
    return bytes;
}

static long load(const char *name)
{
    long length, sum = 0;
    char *text = whole(name, &length);
    for (char *line = text; *line; line = strchr(line, '\n') + 1)
        sum += strtol(strstr(line, " = ") + 3, 0, 10);
    return sum;
}

static long steps, tics, crew;
static pthread_barrier_t met;
static struct { volatile long sum; char beside[120]; } bodies[4];

static void *work(void *first)
{
    for (long tic = 0; tic < tics; tic++) {
        for (long k = (long)first; k < 4; k += crew)
            for (long i = 0; i < steps; i++)
                bodies[k].sum += i;
        pthread_barrier_wait(&met);
    }
    return 0;
}

static long threads(void)
{
    pthread_t others[4];
    pthread_barrier_init(&met, 0, crew);
    for (long k = 1; k < crew; k++)
        if (pthread_create(others + k, 0, work, (void *)k))
            exit(1);
    work(0);
    for (long k = 1; k < crew; k++)
        pthread_join(others[k], 0);
    return bodies[0].sum + bodies[1].sum + bodies[2].sum + bodies[3].sum;
}

int main(int count, char **words)
{
    long result = 0;
    if (count > 3 && !strcmp(words[1], "jobs"))
        result = jobs(atol(words[2]), atol(words[3]));
    else if (count > 2 && !strcmp(words[1], "turns"))
        result = turns(atol(words[2]));
    else if (count > 3 && !strcmp(words[1], "rows"))
        result = rows(atol(words[2]), words[3]);
    else if (count > 2 && !strcmp(words[1], "scan"))
        result = scan(words[2]);
    else if (count > 3 && !strcmp(words[1], "print"))
        result = print(atol(words[2]), words[3]);
    else if (count > 2 && !strcmp(words[1], "load"))
        result = load(words[2]);
    else if (count > 4 && !strcmp(words[1], "threads") && atol(words[4]) >= 1 && atol(words[4]) <= 4) {
        steps = atol(words[2]), tics = atol(words[3]), crew = atol(words[4]);
        result = threads();
    }
    printf("%ld\n", result);
    return 0;
}
