/* The calls of a library that dlopen has opened. Include this file after `wrong` is defined. */
#include <dlfcn.h>

/* The address of a call. */
static void *call(void *library, const char *name) {
    void *at = dlsym(library, name);
    if (!at) wrong(name);
    return at;
}
