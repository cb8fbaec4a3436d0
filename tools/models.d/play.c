/* Plays the smallest inputs that tell the models apart on each of them, and holds what they show against the file of them.
 *     models PROBES PAGE    the last line is 'N passed, M failed' */
#include "models.h"

#include <stdio.h>
#include <stdlib.h>
#include <string.h>
#include <sys/wait.h>
#include <unistd.h>

static const struct model *const models[] = {&model_library, &model_host, &model_qemu7, &model_qemu10, &model_kvm};
enum { MODELS = sizeof models / sizeof *models, SHOWN = 200, LINE = 1000 };

static char shown[SHOWN];
static bool showing;

static void show(const char *format, unsigned long long value)
{
    size_t len = strlen(shown);
    if (showing && len < SHOWN - 20) {
        snprintf(shown + len, SHOWN - len, len == 0 ? format + 1 : format, value);
    }
}

void model_told(unsigned vector, bool on) { show(on ? " +%02llx" : " -%02llx", vector); }

/* One step; false where it is none. '>' before it shows what comes from there on. */
static bool step(const struct model *model, const char *text)
{
    unsigned input, width;
    unsigned long long offset, value;
    if (*text == '>') {
        showing = true;
        text += strspn(text, "> ");
    }
    if (sscanf(text, "raise %x", &input) == 1) {
        model->line(input, true);
    } else if (sscanf(text, "lower %x", &input) == 1) {
        model->line(input, false);
    } else if (sscanf(text, "read %u %llx", &width, &offset) == 2) {
        show(" %llx", model->read(offset, width));
    } else if (sscanf(text, "write %u %llx %llx", &width, &offset, &value) == 3) {
        model->write(offset, width, value);
    } else if (strcmp(text, "numbers") == 0) {
        for (unsigned n = 0; n < 32; n++) {
            model->write(0x200 + n, 1, n);
        }
    } else {
        return false;
    }
    return true;
}

static char *trimmed(char *text)
{
    text += strspn(text, " ");
    for (char *end = text + strlen(text); end > text && (end[-1] == ' ' || end[-1] == '\n'); end--) {
        end[-1] = 0;
    }
    return text;
}

/* What a model shows of the steps, in a process of its own: models keep their state for good. */
static void plays(const struct model *model, const char *steps, char into[SHOWN])
{
    int pipes[2], status = 0;
    if (pipe(pipes) != 0) {
        perror("models");
        exit(2);
    }
    fflush(stdout);
    pid_t child = fork();
    if (child == 0) {
        char copy[LINE], *rest = copy, *part;
        snprintf(copy, sizeof copy, "%s", steps);
        model->start();
        while ((part = strsep(&rest, ";")) != NULL) {
            if (!step(model, trimmed(part))) {
                fprintf(stderr, "models: '%s' is no step\n", part);
                _exit(2);
            }
        }
        if (shown[0] == 0) {
            snprintf(shown, sizeof shown, "-");
        }
        _exit(write(pipes[1], shown, strlen(shown)) < 0 ? 2 : 0);
    }
    close(pipes[1]);
    ssize_t len = read(pipes[0], into, SHOWN - 1);
    into[len > 0 ? len : 0] = 0;
    close(pipes[0]);
    if (child < 0 || waitpid(child, &status, 0) != child || status != 0) {
        fprintf(stderr, "models: %s does not play '%s'\n", model->name, steps);
        exit(2);
    }
}

static unsigned passed, failed;

/* ENTRY | STEPS | what each model shows. */
static void probe(char *line, const char *page)
{
    char *rest = line, *entry = trimmed(strsep(&rest, "|")), *steps = rest != NULL ? trimmed(strsep(&rest, "|")) : NULL;
    char named[100], got[SHOWN];
    bool good = steps != NULL;
    snprintf(named, sizeof named, "`%s`", entry);
    if (!good || strstr(page, named) == NULL) {
        fprintf(stderr, "models: '%s' has no steps, or docs/DIFFERENCES.md has no such entry\n", entry);
        exit(2);
    }
    printf("%-22s", entry);
    for (unsigned i = 0; i < MODELS; i++) {
        const char *wanted = rest != NULL ? trimmed(strsep(&rest, "|")) : "";
        plays(models[i], steps, got);
        bool same = strcmp(wanted, got) == 0;
        good = good && same;
        printf(" %-*s", same ? 14 : 0, got);
        if (!same) {
            printf(" (not %s)", wanted);
        }
    }
    printf(" %s\n", steps);
    passed += good;
    failed += !good;
}

static char *whole(const char *path)
{
    FILE *file = fopen(path, "r");
    char *text = calloc(1, 1 << 20);
    if (file == NULL || text == NULL || fread(text, 1, (1 << 20) - 1, file) == 0) {
        perror(path);
        exit(2);
    }
    fclose(file);
    return text;
}

int main(int argc, char **argv)
{
    if (argc != 3) {
        fprintf(stderr, "usage: models PROBES PAGE\n");
        return 2;
    }
    char *probes = whole(argv[1]), *page = whole(argv[2]), *line;
    printf("%-22s", "");
    for (unsigned i = 0; i < MODELS; i++) {
        printf(" %-14s", models[i]->name);
    }
    printf("\n");
    while ((line = strsep(&probes, "\n")) != NULL) {
        if (line[0] != 0 && line[0] != '#') {
            probe(line, page);
        }
    }
    printf("%u passed, %u failed\n", passed, failed);
    return failed != 0 || passed == 0;
}
