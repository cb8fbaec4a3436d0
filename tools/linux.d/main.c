/* Plays scenarios on a host, each in a process of its own since the driver keeps its state for good. tools/try-linux has the words. */
#include "devices.h"
#include "hosts.h"
#include "scenarios.h"

#include <stdio.h>
#include <stdlib.h>
#include <string.h>
#include <sys/wait.h>
#include <unistd.h>

static const struct host *host = &host_c;
static enum wire wire;
static bool told;
static unsigned passed, failed;
enum { NOT_THERE = 77 };

/* number WORD OPTION: the value of '--option=number'; false where the word is another. */
static bool number(const char *word, const char *option, uint64_t *value)
{
    size_t len = strlen(option);
    if (strncmp(word, option, len) != 0) {
        return false;
    }
    *value = strtoull(word + len, NULL, 10);
    return true;
}

static bool word(const char *word)
{
    uint64_t value;
    if (strcmp(word, "--rust") == 0) {
#ifdef WITH_RUST
        host = &host_rust;
#else
        return false;
#endif
    } else if (strcmp(word, "--keeps") == 0) {
        soak_keeps = true;
    } else if (strcmp(word, "--told") == 0) {
        told = true;
    } else if (strcmp(word, "--accesses") == 0) {
        told = accesses_told = true;
    } else if (number(word, "--without=", &value)) {
        host = &host_duties;
        duties = DUTY_ALL & ~(unsigned)value;
    } else if (number(word, "--wire=", &value) && value < WIRES) {
        wire = (enum wire)value;
    } else if (!number(word, "--steps=", &soak_steps) && !number(word, "--seed=", &soak_seed)) {
        return false;
    }
    return true;
}

/* What it printed is shown where it did not go well, or where all is to be told. */
static void plays(const struct scenario *scenario)
{
    FILE *out = tmpfile();
    char text[4096];
    size_t len;
    int status = 1;
    fflush(stdout);
    pid_t child = out != NULL ? fork() : -1;
    if (child == 0) {
        dup2(fileno(out), 1);
        board_start(host, wire, soak_keeps);
        scenario->play();
        fflush(stdout);
        _exit(failures() != 0 ? 1 : tried() ? 0 : NOT_THERE);
    }
    if (child < 0 || waitpid(child, &status, 0) != child) {
        perror("linux-guest");
        exit(2);
    }
    bool none = WIFEXITED(status) && WEXITSTATUS(status) == NOT_THERE, good = none || (WIFEXITED(status) && WEXITSTATUS(status) == 0);
    printf("%-10s %-6s %s\n", scenario->name, none ? "none" : good ? "ok" : "NOT OK", scenario->what);
    rewind(out);
    while ((good ? told : true) && (len = fread(text, 1, sizeof text, out)) > 0) {
        fwrite(text, 1, len, stdout);
    }
    if (!WIFEXITED(status)) {
        printf("    it ended by signal %d\n", WTERMSIG(status));
    }
    fclose(out);
    passed += good && !none;
    failed += !good;
}

int main(int argc, char **argv)
{
    bool chosen = false;
    int words = 1;
    for (; words < argc && argv[words][0] == '-'; words++) {
        if (!word(argv[words])) {
            fprintf(stderr, "linux-guest: '%s' is no option\n", argv[words]);
            return 2;
        }
    }
    for (unsigned i = 0; i < scenarios_count; i++) {
        bool wanted = words == argc;
        for (int k = words; k < argc; k++) {
            wanted = wanted || strcmp(argv[k], scenarios[i].name) == 0;
        }
        chosen = chosen || wanted;
        if (wanted) {
            plays(&scenarios[i]);
        }
    }
    printf("%u passed, %u failed\n", passed, failed);
    return !chosen ? 2 : failed != 0;
}
