#!/bin/sh
# growth.sh: measures how the calls' times grow with the list, and makes the tables and the drawings of docs/BENCHMARKS.md anew. What is needed, and NEW=ARCHIVE: see run.sh.
#   PASSES=N      how often everything is measured (4); with 0 nothing is: the stores are built, and row 1 compared with row 1 by hand, plain answers with opened ones
#   WORDS="N .."  the lengths of the lists, in the place of 1000 8192 65536 262144 1048576; MEMORY=N the words of the memory of answers
#   ALONE=1       measures also where the oracle cannot be built, without the original
here=$(cd "$(dirname "$0")" && pwd) || exit 2
sh "$here/run.sh" growth || exit 1
[ "${PASSES:-4}" -eq 0 ] || exec sh "$here/plot.sh"
