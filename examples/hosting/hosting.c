/* Desks and walls over a simulated radio, with their states in files: `hosting FOLDER [SEED]`. Two halls run at once, each on a thread. */
#include <errno.h>
#include <pthread.h>
#include <stdlib.h>
#include <sys/stat.h>

#include "host.h"

enum { HALLS = 2, STACK_SIZE = 128 * 1024 };

/* step: versions */
/* The formats that this host is written for: images of version 1, messages of version 2. */
enum { HOST_VERSIONS = 1 * 256 + 2 };

/* Shows what was linked, and whether this host may use it. */
static int check_library(FILE *screen)
{
    uint32_t interface = mulkefi_interface(), versions = mulkefi_versions(), library = mulkefi_library_version();

    fprintf(screen, "mulkefi %u.%u.%u: interface %u, images %u, messages %u\n", (unsigned)(library >> 16), (unsigned)(library >> 8 & 0xff),
            (unsigned)(library & 0xff), (unsigned)interface, (unsigned)(versions >> 8), (unsigned)(versions & 0xff));
    if (interface == MULKEFI_INTERFACE && versions == HOST_VERSIONS)
        return 1;
    fprintf(screen, "this host needs interface %u, images %u, messages %u\n", (unsigned)MULKEFI_INTERFACE,
            (unsigned)(HOST_VERSIONS >> 8), (unsigned)(HOST_VERSIONS & 0xff));
    return 0;
}
/* end */

static void *run(void *hall)
{
    return story(hall) ? hall : NULL;
}

/* step: thread */
/* A thread for one hall: its desk's calls come one after the other, and other halls have other memory. */
static int start_thread(pthread_t *thread, struct hall *hall)
{
    pthread_attr_t attributes;
    int is_started;

    if (pthread_attr_init(&attributes) != 0)
        return 0;
    is_started = pthread_attr_setstacksize(&attributes, STACK_SIZE) == 0 && pthread_create(thread, &attributes, run, hall) == 0;
    pthread_attr_destroy(&attributes);
    return is_started;
}
/* end */

/* A hall with an empty folder of its own, which must not be there yet, and a screen in memory. */
static int make_hall(struct hall *hall, const char *folder, const char *name, uint64_t seed, char **text, size_t *size)
{
    if (!path_in(hall->folder, folder, name) || mkdir(hall->folder, 0777) != 0) {
        fprintf(stderr, "%s/%s can't be made (error %d): give a folder that is empty\n", folder, name, errno);
        return 0;
    }
    hall->desk.folder = hall->wall.folder = hall->folder;
    hall->radio.random = seed;
    hall->screen = open_memstream(text, size);
    return hall->screen != NULL;
}

/* Runs the halls, and prints what each has shown. */
static int run_halls(const char *folder, uint64_t seed)
{
    static const char *const names[HALLS] = {"hall-1", "hall-2"};
    static struct hall halls[HALLS];
    pthread_t threads[HALLS];
    char *texts[HALLS];
    size_t sizes[HALLS];
    void *ended;
    int hall, started, passed = 0;

    for (hall = 0; hall < HALLS; hall++)
        if (!make_hall(&halls[hall], folder, names[hall], seed + (uint64_t)hall, &texts[hall], &sizes[hall]))
            return 0;
    for (started = 0; started < HALLS && start_thread(&threads[started], &halls[started]); started++)
        ;
    for (hall = 0; hall < started; hall++)
        passed += pthread_join(threads[hall], &ended) == 0 && ended != NULL;
    for (hall = 0; hall < HALLS; hall++) {
        fclose(halls[hall].screen);
        printf("\n%s\n%s", names[hall], texts[hall]);
        free(texts[hall]);
    }
    return passed == HALLS;
}

/* Reads a seed: digits, and nothing behind them. */
static int read_seed(const char *text, uint64_t *seed)
{
    char *end;

    errno = 0;
    *seed = strtoull(text, &end, 10);
    return errno == 0 && *text >= '0' && *text <= '9' && *end == '\0';
}

int main(int argc, char **argv)
{
    uint64_t seed = 1;

    if (argc < 2 || argc > 3 || (argc == 3 && !read_seed(argv[2], &seed))) {
        fprintf(stderr, "usage: hosting FOLDER [SEED]\n");
        return 2;
    }
    if (!check_library(stdout))
        return 1;
    if (!run_halls(argv[1], seed)) {
        printf("failed\n");
        return 1;
    }
    printf("\nboth halls ended with the same image at desk and wall\n");
    return 0;
}
