/* The performance anchor for wadlook, and a second opinion on its texts: plain C, written from the formats alone. `build` compiles it.

   baseline CMD [--wide] [NAME] FILE...   as wadlook, and besides:
     census-plain   the census with one descent per point
     census-tests   the census with the numbers tests and pending after each line
     points-steps   points with the number of side tests after each line
     demos          (no NAME) every lump whose name begins with DEMO
     selftest       (no FILE) the side of a point against a second form of itself
   An environment variable BASELINE_MMAP=1 maps the files in place of reading
   them. */
#include "baseline.h"

#include <stdio.h>

int wide;

#define IS(s) (!strcmp(c, s))

/* whether --wide may stand behind this command */
static int takes_wide(const char *c) {
    return IS("show") || IS("audit") || IS("blocks") || !strncmp(c, "points", 6) || !strncmp(c, "census", 6);
}

/* whether this command asks of a name */
static int takes_name(const char *c) {
    return IS("show") || IS("audit") || IS("demo") || IS("extract") || IS("points") || IS("points-steps") || IS("census") ||
           IS("census-plain") || IS("census-tests") || IS("sight") || IS("blocks");
}

/* what this command tells of an open level */
static void tell_level(const char *c) {
    if (IS("show")) cmd_show();
    else if (IS("extract")) cmd_extract();
    else if (IS("sight")) cmd_sight();
    else if (IS("blocks")) cmd_blocks();
    else if (IS("points")) cmd_points(0);
    else if (IS("points-steps")) cmd_points(1);
    else if (IS("census")) cmd_census();
    else if (IS("census-tests")) cmd_census_tests();
    else cmd_census_plain();
}

/* what this command tells of the open files; its status */
static int tell_set(const char *c, const char *name) {
    if (IS("lumps")) cmd_lumps();
    else if (IS("levels")) cmd_levels();
    else if (IS("demos")) cmd_demos();
    else if (IS("demo")) cmd_demo(name);
    else if (IS("audit")) return cmd_audit(name);
    else {
        need_level(name);
        tell_level(c);
    }
    return 0;
}

int main(int argc, char **argv) {
    init_pairs();
    init_usual();
    if (argc == 1) {
        puts("wadlook CMD [NAME] FILE...");
        return 0;
    }
    const char *c = argv[1], *name = 0;
    int a = 2, st = 0;
    if (IS("selftest")) return cmd_selftest();
    if (a < argc && !strcmp(argv[a], "--wide") && takes_wide(c)) {
        wide = 1;
        a++;
    }
    for (int i = a; i < argc; i++)
        if (argv[i][0] == '-') die("usage");
    if (takes_name(c)) {
        if (a >= argc) die("usage");
        name = argv[a++];
    } else if (!(IS("lumps") || IS("levels") || IS("lmp") || IS("demos"))) die("usage");
    if (a >= argc || argc - a > 64 || (IS("lmp") && argc - a != 1)) die("usage");
    if (IS("lmp")) st = cmd_lmp(argv[a]);
    else {
        open_set(argv + a, argc - a);
        st = tell_set(c, name);
    }
    flush();
    return st;
}
