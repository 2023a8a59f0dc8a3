/*
 * A host that loads plug-ins in the order given, each open to those after it, and then asks each for the answers of its
 * own functions. It tells whose are wrong, and ends with 1 where any are, 2 where a plug-in cannot be loaded.
 */
#include <dlfcn.h>
#include <stdio.h>
#include <string.h>

#define MAX_PLUGINS 8

typedef int count_function(void);

/* Null where the plug-in has no such function. */
static count_function* wrong_answers_of(void* plugin)
{
    void* symbol = dlsym(plugin, "wrong_answers");
    count_function* function = NULL;
    memcpy(&function, &symbol, sizeof function);
    return function;
}

int main(int count, char** paths)
{
    count_function* ask[MAX_PLUGINS];
    int failed = 0;
    if (count < 2 || count > MAX_PLUGINS)
        return 2;
    for (int i = 1; i < count; i++) {
        void* plugin = dlopen(paths[i], RTLD_NOW | RTLD_GLOBAL);
        ask[i] = plugin != NULL ? wrong_answers_of(plugin) : NULL;
        if (ask[i] == NULL) {
            fprintf(stderr, "%s\n", dlerror());
            return 2;
        }
    }
    for (int i = 1; i < count; i++) {
        const int wrong = ask[i]();
        if (wrong != 0) {
            printf("%s: %d wrong answers\n", paths[i], wrong);
            failed = 1;
        }
    }
    return failed;
}
