/*
 * loader FOLDER: loads the card in a folder, asks the library for all verdicts
 * in one call and decides which outputs may drive their valves. Lists of both
 * versions are judged alike: where ends are declared, an output with other ends
 * has a hazard too.
 *
 * It prints the counts, a line for each change and output, what CORE's searches
 * took and what it does with each output. It ends with status 0 if all outputs
 * are released, 1 if some are held, 2 if the card is refused, 3 if it is called
 * without a folder.
 */
#include "lane.h"

#include <stdio.h>

enum status { RELEASED = 0, HELD = 1, REFUSED = 2, MISUSED = 3 };

/* As much of a file as is read: longer ones are refused by their first bytes. */
enum { READ = 65536 };

struct bytes {
    uint8_t at[READ];
    size_t length;
};

/* A file that is missing or cannot be read counts as empty. */
static void load(struct bytes *bytes, const char *folder, const char *name)
{
    char path[4096];
    FILE *file;

    bytes->length = 0;
    if (snprintf(path, sizeof path, "%s/%s", folder, name) >= (int)sizeof path)
        return;
    file = fopen(path, "rb");
    if (file == NULL)
        return;
    bytes->length = fread(bytes->at, 1, READ, file);
    fclose(file);
}

/*
 * The loader's act: only an output that was judged and is clean in every change
 * drives its valve. The verdict of an output in a change is one byte, in the
 * change's row. What a version 2 list declares is in it already: an output that
 * keeps still, but not at the declared value, is held.
 */
static enum status decide(const uint8_t *verdicts, size_t changes, size_t outputs)
{
    enum status status = RELEASED;

    for (size_t output = 0; output < outputs; output++) {
        size_t hazards = 0;
        for (size_t change = 0; change < changes; change++)
            hazards += verdicts[change * outputs + output] != LANE_CLEAN;
        if (changes > 0 && hazards == 0) {
            printf("output %zu released\n", output);
            continue;
        }
        status = HELD;
        if (changes == 0)
            printf("output %zu held: no change was judged\n", output);
        else
            printf("output %zu held: hazard in %zu of %zu changes\n", output, hazards, changes);
    }
    return status;
}

static enum status run(const struct bytes *netlist, const struct bytes *list)
{
    /* Room for the verdicts of every card. */
    static uint8_t verdicts[LANE_MAX_VERDICTS];
    uint64_t answer[LANE_ANSWER];
    size_t changes, outputs;
    uint32_t refusal = lane_core_all(netlist->at, netlist->length, list->at, list->length,
                                     verdicts, sizeof verdicts, answer);

    /* First of all: a refused card has no verdicts. */
    if (refusal != LANE_ACCEPTED) {
        printf("refused %u at %u: no output released\n", (unsigned)refusal, (unsigned)answer[0]);
        return REFUSED;
    }
    changes = answer[0];
    outputs = answer[1];
    printf("%zu outputs %zu changes\nchange output verdict\n", outputs, changes);
    for (size_t at = 0; at < changes * outputs; at++)
        printf("%6zu %6zu %s\n", at / outputs, at % outputs,
               verdicts[at] == LANE_CLEAN ? "clean" : "hazard");
    printf("CORE visited %u gates, took %u pins\n", (unsigned)answer[2], (unsigned)answer[3]);
    return decide(verdicts, changes, outputs);
}

int main(int count, char **words)
{
    static struct bytes netlist, list;

    if (count != 2) {
        fprintf(stderr, "loader FOLDER\n");
        return MISUSED;
    }
    load(&netlist, words[1], "lane.lcn");
    load(&list, words[1], "lane.lct");
    return run(&netlist, &list);
}
