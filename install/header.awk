# The man page bulhyemik(3), from include/bulhyemik.h: its first comment, its constants and structs as they stand, and each function
# with the comment in front of it.

# A line without the signs of the comment that it stands in.
function bare(text) {
    sub(/^(\/\*| \*)\/? ?/, "", text)
    sub(/ *\*\/$/, "", text)
    return text
}

# Prints the comment in front from a line on, as running text; its parts can have headings.
function explain(from,    k, text) {
    for (k = from; k <= comment; k++) {
        text = bare(line[k])
        if (text == "")
            request(".PP")
        else if (text ~ /^    / || text ~ /[^ ]   +[^ ]/)
            show(text ~ /^    / ? substr(text, 5) : substr(text, 3))
        else if (text ~ /^[A-Z][a-z ]*$/ && bare(line[k + 1]) ~ /^(- |  )/)
            request(".SS " text)
        else if (text ~ /^- /) {
            request(".IP \\(bu 2")
            say(substr(text, 3))
        } else {
            if (text ~ /^(Units and limits|Refusals[^:]*|Nothing is refused|Lent memory):/)
                request(".PP")
            sub(/^  /, "", text)
            say(text)
        }
    }
    comment = 0
}

/^\/\*/ { within = 1; comment = 0 }
within {
    line[++comment] = $0
    within = $0 !~ /\*\/$/
    next
}
/^#ifndef BULHYEMIK_H$/ {
    name = bare(line[1])
    gsub(/^bulhyemik.h: |\.$/, "", name)
    page(3, "Library Functions", name)
    show("#include <bulhyemik.h>", "B")
    show("cc program.c $(pkg-config --cflags --libs bulhyemik)", "B")
    request(".SH DESCRIPTION")
    explain(2)
    request(".SH CONSTANTS AND STRUCTS")
    next
}
/^(enum|typedef struct|#define BULHYEMIK_(VERSION|MARK))/ {
    for (k = 1; k <= comment; k++)
        show(line[k])
    code = 1
}
code {
    show($0)
    comment = 0
    code = $0 != ""
    next
}
/^(uint64_t|void) bulhyemik_/ {
    if (!functions++)
        request(".SH FUNCTIONS")
    name = $2
    sub(/\(.*/, "", name)
    request(".SS " name)
    prototype = 1
}
prototype {
    show($0, "B")
    if (/;$/) {
        request(".PP")
        explain(1)
        prototype = 0
    }
    next
}
/./ { comment = 0 }
END { see("bulhyemik (1)") }
