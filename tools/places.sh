#!/bin/sh
# What docs/DESIGN-PASS.md counts in. Run at the top of the repository:
#   sh tools/places.sh lines COMMIT   each line of code in crates/*/src: file, function or type, text
#   sh tools/places.sh heads COMMIT   each function's signature and contract as one line
#   sh tools/places.sh names COMMIT   each function, type and constant: its name and its file
#   .. | sh tools/places.sh group     of lines from `lines`: each function or type once, with how many lines it has
# Comments, imports, and in `lines` contracts, are left out.
if [ "$1" = group ]; then
    awk '{ key = $1 " " $2; if (!(key in n)) order[++k] = key; n[key]++ } END { for (i = 1; i <= k; i++) print order[i], n[order[i]] }'
    exit
fi
for f in $(git ls-tree -r --name-only "$2" crates | grep '/src/.*\.rt$'); do
    git show "$2:$f" | awk -v file="${f#crates/}" -v what="$1" '
        /^ *\/\// || /^(ghost )?use / || /^ *#/ || /^$/ { next }
        /^ *(pub(\([a-z]+\))? )?(extern "C" )?(const fn|fn|struct|enum|const|trait|impl|type)[ <]/ {
            item = $0
            sub(/^ *(pub(\([a-z]+\))? )?(extern "C" )?(const fn|fn|struct|enum|const|trait|type) /, "", item)
            if (item !~ /^impl/) sub(/[^A-Za-z_0-9].*/, "", item)
            gsub(/ /, "_", item)
            head = $0 ~ /fn / ? "" : "no"
            if (what == "names") print item, file
        }
        /^pub mod / { next }
        { text = $0; sub(/^ +/, "", text) }
        what == "heads" && head != "no" {
            head = head (head == "" ? "" : " ") text
            if (text ~ /[{;]$/) { sub(/ ?[{;]$/, "", head); print file, item, head; head = "no" }
        }
        what == "lines" && text !~ /^(requires|ensures) / { print file, item, text }
    '
done
