# What both man pages are written with: lines of the program's help or of the C header as roff.

# Begins a page of a section of the manual: its number and name, and what the page is of.
function page(section, named, what) {
    print ".TH BULHYEMIK " section " \"\" \"Bulhyemik " version "\" \"" named "\""
    print ".nh\n.ad l"
    print ".SH NAME\nbulhyemik \\- " what
    print ".SH SYNOPSIS"
}

# Text in which roff finds no command of its own.
function escaped(text) {
    gsub(/\\/, "\\e", text)
    gsub(/-/, "\\-", text)
    return text ~ /^[.']/ ? "\\&" text : text
}

# Prints a line of running text, `words` in bold.
function say(text,    from) {
    text = escaped(text)
    while ((from = match(text, /`[^`]*`/)) > 0)
        text = substr(text, 1, from - 1) "\\fB" substr(text, from + 1, RLENGTH - 2) "\\fR" substr(text, from + RLENGTH)
    literal(0)
    print text
}

# Prints a line of code or of a table as it stands, in a font.
function show(text, font) {
    text = escaped(text)
    gsub(/`/, "\\(ga", text)
    literal(1)
    print font == "" ? text : "\\f" font text "\\fR"
}

# Prints a request behind running text.
function request(text) {
    literal(0)
    print text
}

# Begins lines that stay as they are, or ends them.
function literal(on) {
    if (on && !stays)
        print ".PP\n.in +4n\n.nf"
    if (!on && stays)
        print ".fi\n.in"
    stays = on
}

# Ends a page: the other one, and the papers that are installed.
function see(other) {
    request(".SH SEE ALSO\n.BR " other ",")
    say("share/doc/bulhyemik/RULES.md and share/doc/bulhyemik/CALLING.md of the installation")
}
