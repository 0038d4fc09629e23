/* One call, again and again, for its instructions.
   usage: calls FILE NAME COUNT -- makes the call NAME on the crest and the first point of FILE (bench/walk_crests.py) COUNT times; 1 where it is refused
          calls -- the names, one to a line */
#include <stdlib.h>

#include "calls.h"

int main(int argc, char **argv)
{
    if (argc == 1) {
        for (int i = 0; i < CALLS; i++)
            puts(calls[i].name);
        return 0;
    }
    if (argc != 4 || !take(argv[1]))
        return 2;
    for (int i = 0; i < CALLS; i++)
        if (strcmp(calls[i].name, argv[2]) == 0) {
            for (long n = atol(argv[3]); n > 0; n--) {
                memset(run, 0, sizeof run);
                if (calls[i].call() != 0)
                    return 1;
            }
            return 0;
        }
    return 2;
}
