/* Functions that have names of the library, for c/tests/interposed.c: they could be those of another library. A call of
   the library that reaches them ends the test. This file does not include the header, which declares other functions of
   these names. */
#include <stdio.h>
#include <stdlib.h>

#define OWN(name)                                              \
    int name(void);                                            \
    int name(void) {                                           \
        puts("interposed: the program's " #name " is called"); \
        exit(1);                                               \
    }

OWN(rs_tables_make)
OWN(rs_supports)
OWN(rs_encode)
OWN(rs_decode)
OWN(rs_encode_shards)
OWN(rs_decode_shards)
OWN(rs_verify)
OWN(rs_reconstruct)
OWN(rs_update)
OWN(rs_alloc)
OWN(rs_realloc)
OWN(rs_dealloc)
OWN(rattle_alloc)
OWN(rattle_realloc)
OWN(rattle_dealloc)
