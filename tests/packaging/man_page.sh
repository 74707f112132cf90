#!/bin/sh
# man/pollrelay.1 is what tools/man_page.py makes of docs/operations.md; mandoc, which is installed if it is missing, finds
# no fault in it; and it has the guide's sections and each text that the guide's tables and lists set off, as mandoc shows it.
#
#     sh tests/packaging/man_page.sh
. "$(dirname "$0")/../lib/shell.sh"
need mandoc:mandoc
page=man/pollrelay.1
guide=docs/operations.md
words_file=$scratch/words

none "current (python3 tools/man_page.py > $page)" "$(python3 tools/man_page.py | diff $page - | head -n 20)"
none "mandoc -Tlint" "$(mandoc -Tlint -Wstyle $page 2>&1)"

# Messages are the page's section on diagnostics.
sed -n 's/^## //p' $guide | tr '[:lower:]' '[:upper:]' | sed 's/^MESSAGES$/DIAGNOSTICS/' >"$words_file"
none "sections" "$(sed -n 's/^\.Sh //p' $page | diff "$words_file" -)"
sed -n 's/^### //p' $guide >"$words_file"
none "sections below these" "$(sed -n 's/^\.Ss //p' $page | diff "$words_file" -)"
none "headings as they stand in the guide" "$(mandoc -Tascii $page | grep '^ *##')"

# The page as running text.
text=$(mandoc -Tascii $page | sed "s/.$(printf '\b')//g" | tr -s ' \n\t' ' ')
# The first cell of each row of a table, and each number with a thousand.
sed -n 's/^| `\([^`]*\)`.*/\1/p' $guide >"$words_file"
grep -o '[0-9]\{1,3\}\(,[0-9]\{3\}\)\{1,\}' $guide | sort -u >>"$words_file"
while read -r words; do
    case $text in
        *"$words"*) none "what the page has" "" ;;
        *) none "what the page lacks" "$words" ;;
    esac
done <"$words_file"
holds "words to compare" test "$(wc -l <"$words_file")" -ge 20
finish
