/* The tables of many processes, mapped from one file. The first process that finds no usable file makes it. All of
   them map it to be read only, so the system keeps one copy of the tables, and a process starts without filling
   tables of its own. */
#define _XOPEN_SOURCE 700
#include <fcntl.h>
#include <reed_solomon_simd.h>
#include <stdio.h>
#include <stdlib.h>
#include <string.h>
#include <sys/mman.h>
#include <sys/stat.h>
#include <sys/wait.h>
#include <unistd.h>

/* Whether only this user or root can change the file, and it has the size of tables. */
static int is_trusted(int file) {
    struct stat status;
    return !fstat(file, &status) && (status.st_uid == geteuid() || status.st_uid == 0) &&
           !(status.st_mode & (S_IWGRP | S_IWOTH)) && (size_t)status.st_size == sizeof(struct rs_tables);
}

/* Maps a file of tables. Returns NULL if there is none that can be used. */
static const struct rs_tables *map_tables(const char *path) {
    void *tables = MAP_FAILED;
    int file = open(path, O_RDONLY | O_CLOEXEC);
    if (file < 0) return NULL;
    if (is_trusted(file)) tables = mmap(NULL, sizeof(struct rs_tables), PROT_READ, MAP_SHARED, file, 0);
    close(file);
    if (tables == MAP_FAILED) return NULL;
    /* Each call checks the stamp first. With counts that are not supported, this one does nothing else. */
    if (rs_encode(tables, 0, 0, 0, NULL, 0, NULL, 0, NULL) != RS_TABLES_NOT_MADE) return tables;
    munmap(tables, sizeof(struct rs_tables));
    return NULL;
}

static int is_written(int file, const void *bytes, size_t length) {
    const char *next = bytes;
    while (length) {
        ssize_t written = write(file, next, length);
        if (written <= 0) return 0;
        next += written, length -= (size_t)written;
    }
    return 1;
}

/* Makes a file of tables. It gets its name when it is complete and on the disk, so no process finds half of it,
   and it does not matter if several processes do this at once. Returns 0 if it fails. */
static int make_tables_file(const char *path) {
    struct rs_tables *tables = malloc(sizeof *tables);
    char other[4096];
    int file = -1, is_made = 0;
    if ((size_t)snprintf(other, sizeof other, "%s.XXXXXX", path) < sizeof other) file = mkstemp(other);
    if (file >= 0) {
        is_made = tables && !rs_tables_make(tables) && is_written(file, tables, sizeof *tables) &&
                  !fchmod(file, 0444) && !fsync(file);
        close(file);
        if (!is_made || rename(other, path)) unlink(other), is_made = 0;
    }
    free(tables);
    return is_made;
}

static const struct rs_tables *tables_from(const char *path) {
    const struct rs_tables *tables = map_tables(path);
    return !tables && make_tables_file(path) ? map_tables(path) : tables;
}

/* The rest of this file tests these functions. */
enum { K = 10, R = 4, SIZE = 1024, PROCESSES = 6 };
static uint8_t originals[K * SIZE], recovery[R * SIZE], expected[R * SIZE];
static struct rs_tables *own;
static char folder[] = P_tmpdir "/rs_tables_XXXXXX", path[sizeof folder + 8];

static void wrong(const char *what) {
    printf("shared_tables: %s\n", what);
    exit(1);
}

static int encodes_right(const struct rs_tables *tables) {
    memset(recovery, 0, sizeof recovery);
    return tables && !rs_encode(tables, K, R, SIZE, originals, K * SIZE, recovery, R * SIZE, NULL) &&
           !memcmp(recovery, expected, sizeof recovery);
}

/* Several processes begin at once, and each encodes the same bytes with the tables of the file. */
static void in_processes(void) {
    int children = 0, status;
    while (children++ < PROCESSES) {
        pid_t child = fork();
        if (child < 0) wrong("no process");
        if (!child) _exit(encodes_right(tables_from(path)) ? 0 : 1);
    }
    while (wait(&status) > 0)
        if (status) wrong("a process fails, or encodes other bytes");
}

/* Puts `length` bytes into the place of the file, which everyone with one of the rights `mode` can read or write. */
static void replaced(const void *bytes, size_t length, mode_t mode) {
    int file;
    if (unlink(path) || (file = open(path, O_WRONLY | O_CREAT | O_EXCL, 0600)) < 0) wrong("no file");
    if (!is_written(file, bytes, length) || fchmod(file, mode) || close(file)) wrong("a file that is not written");
}

/* Files that must not be used: one is cut short, one has no stamp, others can write to one, and one is a device. */
static void unusable_files(void) {
    struct rs_tables *zeros = calloc(1, sizeof *zeros);
    if (!zeros) wrong("no memory for the test");
    replaced(own, sizeof *own / 2, 0444);
    if (map_tables(path)) wrong("a file that is cut short is used");
    replaced(zeros, sizeof *zeros, 0444);
    if (map_tables(path)) wrong("a file without a stamp is used");
    replaced(own, sizeof *own, 0464);
    if (map_tables(path)) wrong("a file that others can write to is used");
    if (unlink(path) || symlink("/dev/zero", path) || map_tables(path)) wrong("a device is used");
    if (!encodes_right(tables_from(path))) wrong("an unusable file is not replaced");
    free(zeros);
}

int main(void) {
    const struct rs_tables *mapped;
    own = malloc(sizeof *own);
    if (!own || rs_tables_make(memset(own, 170, sizeof *own))) wrong("no tables");
    for (size_t i = 0; i < sizeof originals; i++) originals[i] = (uint8_t)(i * 2654435761u >> 13);
    if (rs_encode(own, K, R, SIZE, originals, K * SIZE, expected, R * SIZE, NULL)) wrong("an encode fails");
    if (!mkdtemp(folder)) wrong("no folder");
    sprintf(path, "%s/tables", folder);
    in_processes();
    mapped = map_tables(path);
    if (!mapped || memcmp(mapped, own, sizeof *own)) wrong("the file has other bytes than tables in memory");
    unusable_files();
    if (unlink(path) || rmdir(folder)) wrong("more files are left than the tables");
    if (!encodes_right(mapped)) wrong("mapped tables end with their file");
    puts("shared_tables: processes use the tables of one file");
    free(own);
    return 0;
}
