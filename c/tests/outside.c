/* Loads the shared object that is named, and calls into it. */
#include <dlfcn.h>
#include <stdio.h>

int main(int count, char **words) {
    double (*inside)(double) = 0;
    void *object = count > 1 ? dlopen(words[1], RTLD_NOW | RTLD_LOCAL) : 0;
    if (object) *(void **)&inside = dlsym(object, "inside");
    puts(inside && inside(2.5) == 2.5 && !dlclose(object) ? "passed" : "FAILED");
    return 0;
}
