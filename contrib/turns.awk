#!/usr/bin/awk -f
# Counts the turns of a server by kind, from the lines of `s10 serve`. Turns with a reply are counted by the kind of request.
BEGIN { split("grant draw void query draw-many withdraw", asked) } { turns[$1 (NF < 2 ? "" : " " ($1 == "replied" ? asked[substr($2, 8, 1)] : $2))]++ } END { for (kind in turns) print turns[kind], kind }
