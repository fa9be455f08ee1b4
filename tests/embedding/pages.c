/*
 * Maps in memory that is shared and read-only: they are written once to a file, which is then mapped with PROT_READ and
 * MAP_SHARED. Eight threads use them at once, and so does a second process, which has them at another address.
 */
#include "see.h"

#include <pthread.h>
#include <sys/wait.h>
#include <unistd.h>

enum { SPECS = 1000, RULES = 30, THREADS = 8, ROUNDS = 30000, NUMBERS = 65536, LEN = 4 * NUMBERS + 65536 };

static size_t count, names_len;

/* Specification i makes the ten guest ids from 20 i on the host ids from 1000000 + 20 i on. The names of the guest that
   begin with user.I. have host.I. before them on the host, for I below 30, and all others are denied. */
static int make(uint8_t *file)
{
    static struct virtiofs_spec specs[SPECS];
    char rules[RULES * 40 + 20], *end = rules;
    struct virtiofs_fault fault;
    for (uint32_t i = 0; i < SPECS; i++)
        specs[i] = (struct virtiofs_spec){ VIRTIOFS_MAP, 20 * i, 1000000 + 20 * i, 10 };
    for (int i = 0; i < RULES; i++)
        end += sprintf(end, ":prefix:all:user.%d.:host.%d.:\n", i, i);
    sprintf(end, ":bad:all:::");
    names_len = names_of(rules, file + 4 * NUMBERS, LEN - 4 * NUMBERS).len;
    return virtiofs_uids_make(specs, SPECS, (uint32_t *)(void *)file, NUMBERS, &count, &fault) == VIRTIOFS_OK
           && names_len;
}

static int are_ids_right(struct virtiofs_uids users, uint32_t id)
{
    const struct virtiofs_gids groups = { users.words, users.count };
    uint32_t to = 0, back = 0, wanted = id < 20 * SPECS && id % 20 < 10 ? 1000000 + id : id;
    uint8_t value[] = { 2, 0, 0, 0, 2, 0, 7, 0, (uint8_t)id, (uint8_t)(id >> 8), (uint8_t)(id >> 16), 0 };
    struct virtiofs_entry_room entry[1];
    struct virtiofs_fault fault;
    return virtiofs_uids_to_host(users, id, &to) == VIRTIOFS_OK && to == wanted
           && virtiofs_gids_to_guest(groups, to, &back) == VIRTIOFS_OK && back == id
           && virtiofs_acl_to_host(users, groups, value, sizeof value, entry, 1, &fault) == VIRTIOFS_OK
           && value[8] + 256u * value[9] + 65536u * value[10] == wanted;
}

static int are_names_right(struct virtiofs_names names, int i)
{
    char name[32], wanted[64];
    uint8_t out[64];
    size_t len = (size_t)sprintf(name, "user.%d.x", i), wanted_len = (size_t)sprintf(wanted, "host.%d.%s", i, name);
    size_t told = 0;
    uint32_t code = virtiofs_name_to_host_bytes(names, name, len, out, sizeof out, &told);
    if (i >= RULES)
        return code == VIRTIOFS_DENIED;
    return code == VIRTIOFS_OK && told == wanted_len && !memcmp(out, wanted, told)
           && virtiofs_list_to_guest(names, out, told, out + 32, 32, &told) == VIRTIOFS_OK && told == len + 1
           && !memcmp(out + 32, name, told);
}

/* Calls that allocate may be made by many threads at once, too. */
static int are_others_right(struct virtiofs_names names)
{
    const struct virtiofs_spec spec = { VIRTIOFS_MAP, 0, 1000, 10 };
    struct virtiofs_ids_found found;
    struct virtiofs_fault fault;
    uint32_t words[WORDS];
    size_t told;
    bool yes;
    return virtiofs_uids_make(&spec, 1, words, WORDS, &told, &fault) == VIRTIOFS_OK
           && virtiofs_names_audit(names, &yes, NULL, 0, &told) == VIRTIOFS_OK && yes
           && virtiofs_ids_comes_back(&spec, 1, &yes, &found, &fault) == VIRTIOFS_OK && found.guest == 1000;
}

struct asker { uint8_t *file; uint64_t state; int wrong; };

static void *ask(void *argument)
{
    struct asker *asker = argument;
    const struct virtiofs_uids users = { (uint32_t *)(void *)asker->file, count };
    const struct virtiofs_names names = { asker->file + 4 * NUMBERS, names_len };
    for (int round = 0; round < ROUNDS; round++) {
        uint32_t number = (uint32_t)(random_number(&asker->state) >> 32);
        asker->wrong += !are_ids_right(users, number % 20200) + !are_names_right(names, (int)(number % (2 * RULES)));
        asker->wrong += round % 100 == 0 && !are_others_right(names);
    }
    return NULL;
}

static uint8_t *mapped(FILE *file, int how)
{
    uint8_t *at = mmap(NULL, LEN, how, MAP_SHARED, fileno(file), 0);
    if (at == MAP_FAILED)
        exit(3);
    return at;
}

static void test_threads(uint8_t *file)
{
    static struct asker askers[THREADS];
    pthread_t threads[THREADS];
    for (int i = 0; i < THREADS; i++) {
        askers[i] = (struct asker){ file, (uint64_t)i + 1, 0 };
        SEE(!pthread_create(&threads[i], NULL, ask, &askers[i]));
    }
    for (int i = 0; i < THREADS; i++)
        SEE(!pthread_join(threads[i], NULL) && !askers[i].wrong);
}

int main(void)
{
    FILE *file = tmpfile();
    int status = -1;
    if (!file || ftruncate(fileno(file), LEN))
        return 3;
    uint8_t *written = mapped(file, PROT_READ | PROT_WRITE);
    SEE(make(written) && !munmap(written, LEN));
    uint8_t *shared = mapped(file, PROT_READ);
    pid_t child = fork();
    if (!child) {
        struct asker asker = { mapped(file, PROT_READ), 99, 0 };
        ask(&asker);
        _exit(asker.file == shared || asker.wrong);
    }
    test_threads(shared);
    SEE(child > 0 && waitpid(child, &status, 0) == child && WIFEXITED(status) && !WEXITSTATUS(status));
    return counted();
}
